//! Single lent blocks that a search, an edit or a split refuses, whichever call it is.

use oracle::probe::{write_content, Content, Item};
use subject::{ask, Answer, Branch, Leaf, Subject};

use super::Run;
use crate::make::fields::put;
use crate::parts::{kept, FILLER};

const P: u64 = 1_024;

/// Number, element and common beginning.
pub type Fault = (u64, u64, u64);

/// A leaf of b and c, or a branch of them, in one page.
fn block(leaf: bool) -> Vec<u8> {
    let tag = if leaf { 0 } else { 7 };
    let items = ["b", "c"].map(|key| Item { tag, key: key.into(), value: Vec::new() });
    write_content(&Content { leaf, items: items.to_vec() }, P, 3, 0)
}

pub fn run(run: &mut Run) {
    for leaf in [true, false] {
        lengths(run, leaf);
        contents(run, leaf);
    }
}

fn lengths(run: &mut Run, leaf: bool) {
    let block = block(leaf);
    let two = [block.clone(), block.clone()].concat();
    for p in [0, 1_016, 1_020, 65_544, u64::MAX] {
        every_call(run, &block, p, (1, 0, 0));
    }
    every_call(run, &[], P, (1, 0, 0));
    every_call(run, &block[1..], P, (1, 0, 0));
    every_call(run, &two[1..], P, (1, 0, 0));
    every_call(run, &block, 2 * P, (1, 0, 0));
    every_call(run, &two, P, (3, 0, 0));
    every_call(run, &two, 2 * P, (0, 0, 0));
}

fn contents(run: &mut Run, leaf: bool) {
    let (size, pos, key_size) = if leaf { (32, 8, 16) } else { (24, 16, 8) };
    let second = 32 + size;
    let data = 32 + 2 * size;
    let fitting = (1_024 - 32) / size as u64;
    let cases: [(&[(usize, u64)], Fault); 13] = [
        (&[(0, 99)], (0, 0, 0)),
        (&[(8, 0)], (3, 0, 0)),
        (&[(8, 3)], (3, 0, 0)),
        (&[(8, 4)], (3, 0, 0)),
        (&[(24, 1)], (3, 0, 0)),
        (&[(24, u64::MAX)], (3, 0, 0)),
        (&[(16, fitting + 1)], (4, 0, 0)),
        (&[(16, u64::MAX)], (4, 0, 0)),
        (&[(16, fitting)], (5, 0, 0)),
        (&[(second + pos, size as u64 - 1)], (5, 1, 0)),
        (&[(second + pos, u64::MAX)], (5, 1, 0)),
        (&[(second + key_size, u64::MAX - 20)], (5, 1, 0)),
        (&[(data, 0x62_63)], (6, 1, 0)),
    ];
    for (change, fault) in cases {
        let mut block = block(leaf);
        change.iter().for_each(|(at, number)| put(&mut block, *at, *number));
        every_call(run, &block, P, fault);
    }
    let mut empty = block(leaf);
    put(&mut empty, 16, 0);
    every_call(run, &empty, P, if leaf { (0, 0, 0) } else { (4, 0, 0) });
}

/// Each call on this block gives the fault, and none changes what is lent; (0, 0, 0) is for a block they all take.
pub fn every_call(run: &mut Run, block: &[u8], p: u64, fault: Fault) {
    let subject = run.subject;
    let mut out = vec![FILLER; 4_096];
    let mut cuts = vec![u64::MAX; 4];
    let numbers = calls(subject, block, p, &mut out, &mut cuts);
    if fault.0 == 0 {
        let taken = numbers.iter().all(|(number, ..)| ![1, 3, 4, 5, 6].contains(number));
        run.tally.check(taken, || format!("a block taken, P {p}: {numbers:?}"));
        return;
    }
    let unchanged = kept(&out) && cuts.iter().all(|cut| *cut == u64::MAX);
    let expected = vec![fault; numbers.len()];
    run.tally.same((numbers, unchanged), (expected, true), || {
        format!("P {p}, {} bytes {:?}..", block.len(), &block[..block.len().min(100)])
    });
}

/// What every call that reads a block says of it.
fn calls(subject: &dyn Subject, block: &[u8], p: u64, out: &mut [u8], cuts: &mut [u64]) -> Vec<Fault> {
    let leaf = Leaf { key: b"d", kind: 0, value: b"" };
    let branch = Branch { original: None, key: b"d", child: 9 };
    vec![
        fault(ask::<5>(|answer| subject.index(block, p, b"b", answer))),
        fault(ask::<4>(|answer| subject.index_page(block, p, 0, answer))),
        fault(ask::<9>(|answer| subject.entry(block, p, 0, answer))),
        fault(ask::<6>(|answer| subject.size(block, p, answer))),
        fault(ask::<4>(|answer| subject.insert(block, p, leaf, out, answer))),
        fault(ask::<9>(|answer| subject.delete(block, p, 0, out, answer))),
        fault(ask::<4>(|answer| subject.insert_branch(block, p, branch, out, answer))),
        fault(ask::<4>(|answer| subject.split(block, p, cuts, answer))),
        fault(ask::<5>(|answer| subject.split_write(block, p, 20, &[5], out, answer))),
    ]
}

/// The number of an answer, and its last two fields.
fn fault<const F: usize>(answer: Answer<F>) -> Fault {
    (answer.number, answer.fields[F - 2], answer.fields[F - 1])
}
