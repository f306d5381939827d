//! Histories of the freelist: each starts with a new table, and after each call the list and the size are asked for.

use oracle::probe::free::FreeTable;

use super::tape::{words, Call, Record, Tape};
use crate::make;
use crate::rng::Rng;

/// The crate's table, its page size, and the page count that goes with it.
struct History {
    table: FreeTable,
    p: u64,
    n: u64,
}

pub fn record(rng: &mut Rng, tape: &mut Tape) {
    for round in 0..24 {
        let most = if round == 0 { 600 } else { 60 };
        let mut history = start(rng, tape, most);
        for _ in 0..12 {
            step(rng, tape, &mut history);
            listed(tape, &history);
        }
    }
}

/// A new table with an initial list.
fn start(rng: &mut Rng, tape: &mut Tape, most: u64) -> History {
    let (p, n) = (make::page_size(rng), rng.between(most / 2, most));
    tape.add(&Record { call: Call::FreeNew, ..Record::default() });
    let ids: Vec<u64> = (2..n).filter(|_| rng.one_in(3)).collect();
    tape.add(&Record { call: Call::FreeInit, arguments: &[n], other: &words(&ids), ..Record::default() });
    let mut table = FreeTable::new(p, n);
    table.init(&ids);
    History { table, p, n }
}

fn step(rng: &mut Rng, tape: &mut Tape, history: &mut History) {
    match rng.below(10) {
        0..=3 => free(rng, tape, history),
        4 | 5 => release(rng, tape, history),
        _ => allocate(rng, tape, history),
    }
}

/// Frees a run of pages that the crate's list does not hold, so that they are in use.
fn free(rng: &mut Rng, tape: &mut Tape, history: &mut History) {
    let (first, t) = (rng.between(2, history.n - 1), rng.pick(&[0, 1, 2, 3, 5, u64::MAX]));
    let listed = history.table.pages();
    let most = rng.between(1, 4);
    let count = (first..history.n).take(most as usize).take_while(|page| !listed.contains(page)).count() as u64;
    if count > 0 {
        history.table.free(first, count, t);
        tape.add(&Record { call: Call::FreePages, arguments: &[history.n, first, count, t], ..Record::default() });
    }
}

fn release(rng: &mut Rng, tape: &mut Tape, history: &mut History) {
    let t = rng.pick(&[0, 1, 2, 3, 4, 6, u64::MAX]);
    history.table.release(t);
    tape.add(&Record { call: Call::Release, arguments: &[history.n, t], ..Record::default() });
}

/// Allocates; fewer than 40 bytes let the crate panic, for which 01 has 11.
fn allocate(rng: &mut Rng, tape: &mut Tape, history: &mut History) {
    let pages = rng.pick(&[0, 1, 1, 1, 2, 2, 3, 4, 7]);
    let bytes = rng.pick(&[39, 40, history.p * pages, history.p * pages + 1, history.p * pages + 41]);
    let start = history.table.allocate(bytes);
    tape.add(&Record {
        call: Call::Allocate,
        number: if start.is_some() { 0 } else { 11 },
        arguments: &[history.n, history.p, bytes],
        fields: &start.map_or([0; 2], |(start, n)| [start, n]),
        ..Record::default()
    });
    history.n = history.table.num_pages();
}

/// The list, with room for one page more, and the size.
fn listed(tape: &mut Tape, history: &History) {
    let ids = history.table.pages();
    tape.add(&Record {
        call: Call::FreeList,
        arguments: &[history.n],
        room: ids.len() + 1,
        fields: &[ids.len() as u64],
        output: &words(&ids),
        ..Record::default()
    });
    let fields = [history.table.size()];
    tape.add(&Record { call: Call::FreeSize, arguments: &[history.n], fields: &fields, ..Record::default() });
}
