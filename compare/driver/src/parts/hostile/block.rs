//! Every call on one changed block.

use oracle::probe::{edit, search, Content, Item};
use subject::{ask, Branch, Leaf, Subject};

use super::{change, Seen};
use crate::by_reading::Reading;
use crate::make::parting::disorder;
use crate::make::{self, block, content};
use crate::parts::{kept, Run, FILLER};
use crate::rng::Rng;

/// Each call, and how many fields its answer has.
const CALLS: [(&str, usize); 10] = [
    ("index", 5),
    ("index_page", 4),
    ("size", 6),
    ("insert", 4),
    ("delete", 9),
    ("insert_branch", 4),
    ("a replacement", 4),
    ("split", 4),
    ("split_write", 5),
    ("entry", 9),
];

/// A block and the arguments for every call on it.
#[derive(Debug)]
struct Question {
    block: Vec<u8>,
    p: u64,
    key: Vec<u8>,
    entry: Item,
    number: u64,
    room: usize,
}

/// What a call answered and left in the lent output and list.
#[derive(Clone, Debug, PartialEq)]
struct Left {
    number: u64,
    fields: [u64; 9],
    out: Vec<u8>,
    list: Vec<u64>,
}

pub fn run(run: &mut Run, round: usize, seen: &mut Seen) {
    let question = question(&mut run.rng);
    for (call, (name, fields)) in CALLS.iter().enumerate() {
        let expected = question.asked(&Reading, call);
        seen.add(expected.number, expected.fields[fields - 1]);
        let unchanged = kept(&expected.out) && expected.list.iter().all(|word| *word == u64::MAX);
        run.tally.check(expected.number == 0 || unchanged, || format!("round {round}: {name} changed what is lent"));
        run.tally
            .same(question.asked(run.subject, call), expected, || format!("round {round}: {name} of {question:?}"));
    }
    beside_crate(run, round, &question);
}

fn question(rng: &mut Rng) -> Question {
    let p = make::small_page_size(rng);
    let leaf = rng.one_in(2);
    let (mut block, content) = block::sound(rng, leaf, p);
    for _ in 0..rng.below(3) {
        change(rng, &mut block, 0, 20);
    }
    if rng.one_in(3) {
        disorder(rng, &mut block, 0);
    }
    let key = key(rng, &content);
    let mut entry = content::item(rng, true, key.clone(), p);
    if rng.one_in(8) {
        entry.tag += 1;
    }
    if rng.one_in(30) {
        entry.value = vec![7; 1_048_000];
    }
    let room = if rng.one_in(4) { rng.below(2 * p as usize) } else { 40 * p as usize };
    Question { block, p, key, entry, number: rng.between(0, 8), room }
}

/// A key of the content, or any.
fn key(rng: &mut Rng, content: &Content) -> Vec<u8> {
    if content.items.is_empty() || rng.one_in(2) {
        return content::key(rng);
    }
    rng.pick(&content.items).key
}

impl Question {
    fn asked(&self, s: &dyn Subject, call: usize) -> Left {
        let Question { block, p, key, entry, number, room } = self;
        let (p, number) = (*p, *number);
        let (mut out, mut list) = (vec![FILLER; *room], vec![u64::MAX; number as usize]);
        let ids: Vec<u64> = (0..number).map(|i| 2 + 5 * i).collect();
        let leaf = Leaf { key, kind: entry.tag, value: &entry.value };
        let branch = Branch { original: None, key, child: number };
        let replacing = Branch { original: Some(key), key: &entry.value, child: number };
        let answer = match call {
            0 => ask(|answer| s.index(block, p, key, answer)),
            1 => ask(|answer| s.index_page(block, p, number, answer)),
            2 => ask(|answer| s.size(block, p, answer)),
            3 => ask(|answer| s.insert(block, p, leaf, &mut out, answer)),
            4 => ask(|answer| s.delete(block, p, number, &mut out, answer)),
            5 => ask(|answer| s.insert_branch(block, p, branch, &mut out, answer)),
            6 => ask(|answer| s.insert_branch(block, p, replacing, &mut out, answer)),
            7 => ask(|answer| s.split(block, p, &mut list, answer)),
            8 => ask(|answer| s.split_write(block, p, 40, &ids, &mut out, answer)),
            _ => ask(|answer| s.entry(block, p, number, answer)),
        };
        Left { number: answer.number, fields: answer.fields, out, list }
    }
}

/// Where an answer is 0 the crate's is the same.
fn beside_crate(run: &mut Run, round: usize, question: &Question) {
    let Question { block, p, key, entry, number, .. } = question;
    let index = question.asked(run.subject, 0);
    if index.number != 0 {
        return;
    }
    let [(i, found), _] = search::index(block, *p, key);
    run.tally.same([index.fields[0], index.fields[1]], [i as u64, u64::from(found)], || {
        format!("round {round}: the crate's index")
    });
    let insert = question.asked(run.subject, 3);
    if insert.number == 0 {
        let expected = edit::insert(block, *p, entry, 0).unwrap();
        run.tally.check(insert.out.starts_with(&expected), || format!("round {round}: the crate's insert"));
    }
    let delete = question.asked(run.subject, 4);
    if delete.number == 0 {
        let (expected, _) = edit::delete(block, *p, *number as usize, 0).unwrap();
        run.tally.check(delete.out.starts_with(&expected), || format!("round {round}: the crate's delete"));
    }
}
