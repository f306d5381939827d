//! Freelist calls on tables with any states, and meta pages with any bytes.

use reading::freelist::Table;
use reading::words::{load, TABLE_WORDS};
use subject::{ask, Subject};

use super::Seen;
use crate::by_reading::Reading;
use crate::parts::Run;
use crate::rng::Rng;

const CALLS: [&str; 6] = ["free_init", "free_pages", "release", "allocate", "free_list", "free_size"];

/// A table and the arguments for every call on it.
struct Question {
    table: Vec<u64>,
    n: u64,
    ids: Vec<u64>,
    first: u64,
    count: u64,
    t: u64,
    bytes: u64,
}

pub fn run(run: &mut Run, round: usize, seen: &mut Seen) {
    let question = question(&mut run.rng);
    for (call, name) in CALLS.iter().enumerate() {
        let expected = question.asked(&Reading, call);
        seen.add(expected.0, 0);
        run.tally.check(question.asked(run.subject, call) == expected, || {
            format!("round {round}: {name}, N {}", question.n)
        });
    }
}

fn question(rng: &mut Rng) -> Question {
    let n = if rng.one_in(8) { rng.between(32_760, 32_768) } else { rng.between(2, 200) };
    let ids = (2..n.min(200)).filter(|_| rng.one_in(40)).collect();
    Question {
        table: table(rng),
        n,
        ids,
        first: rng.between(0, n.min(200)),
        count: rng.between(0, 4),
        t: rng.between(0, 6),
        bytes: rng.between(0, 14_000),
    }
}

/// States at random for the first 256 pages, at times one that is none of the three.
fn table(rng: &mut Rng) -> Vec<u64> {
    let mut table = vec![0; TABLE_WORDS];
    for word in 0..4 {
        table[word] = rng.next() & rng.next();
        table[512 + word] = rng.next() & !table[word];
    }
    (0..256).for_each(|page| table[1_024 + page] = rng.between(0, 5));
    if rng.one_in(8) {
        let bit = 1 << rng.below(64);
        table[0] |= bit;
        table[512] |= bit;
    }
    table
}

impl Question {
    /// Number and fields of a call, and what it left.
    fn asked(&self, s: &dyn Subject, call: usize) -> (u64, [u64; 2], Table, Vec<u64>) {
        let mut table = self.table.clone();
        let mut list = vec![u64::MAX; self.first as usize];
        let answer = match call {
            0 => ask(|answer| s.free_init(&mut table, self.n, &self.ids, answer)),
            1 => ask(|answer| s.free_pages(&mut table, self.n, self.first, self.count, self.t, answer)),
            2 => ask(|answer| s.release(&mut table, self.n, self.t, answer)),
            3 => ask(|answer| s.allocate(&mut table, self.n, 1_024, self.bytes, answer)),
            4 => ask(|answer| s.free_list(&table, self.n, &mut list, answer)),
            _ => ask(|answer| s.free_size(&table, self.n, answer)),
        };
        (answer.number, answer.fields, load(&table).unwrap(), list)
    }
}
