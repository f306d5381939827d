//! Arguments that edits and split writing refuse, and the order of 11, 14, 15 and 10.

use oracle::probe::{write_content, Content, Item};
use subject::{ask, Branch, Leaf};

use super::Run;
use crate::parts::{kept, FILLER};

const P: u64 = 1_024;
const MAX: u64 = u64::MAX;

/// A leaf or branch of b, d and f.
fn block(leaf: bool) -> Vec<u8> {
    let tag = if leaf { 0 } else { 7 };
    let items = ["b", "d", "f"].map(|key| Item { tag, key: key.into(), value: Vec::new() });
    write_content(&Content { leaf, items: items.to_vec() }, P, 3, 0)
}

pub fn run(run: &mut Run) {
    inserts(run);
    deletes(run);
    branches(run);
    first_blocks(run);
    split_lists(run);
    largest(run);
}

/// Checks the number of a call with this much output, and that a refusal changes nothing.
fn numbered(run: &mut Run, number: u64, room: usize, what: &str, call: impl FnOnce(&mut [u8], &mut [u8]) -> u64) {
    let mut out = vec![FILLER; room];
    let got = ask::<9>(|answer| call(&mut out, answer));
    run.tally.same((got.number, number == 0 || kept(&out)), (number, true), || what.into());
}

fn inserts(run: &mut Run) {
    let subject = run.subject;
    let large = vec![0; 1 << 20];
    let cases: [(bool, u64, &[u8], usize, u64); 11] = [
        (true, 0, b"", 1_024, 0),
        (true, 1, &[0; 16], 1_024, 0),
        (false, 0, b"", 1_024, 11),
        (true, 2, b"", 1_024, 11),
        (true, MAX, b"", 1_024, 11),
        (true, 1, &[0; 15], 1_024, 11),
        (true, 1, &[0; 17], 1_024, 11),
        (true, 1, b"", 0, 11),
        (true, 2, &large, 0, 11),
        (true, 0, &large, 0, 15),
        (true, 0, b"", 1_023, 10),
    ];
    for (leaf, kind, value, room, number) in cases {
        let entry = Leaf { key: b"c", kind, value };
        let what = format!("insert kind {kind}, {} bytes, leaf {leaf}, room {room}", value.len());
        numbered(run, number, room, &what, |out, answer| subject.insert(&block(leaf), P, entry, out, answer));
    }
}

fn deletes(run: &mut Run) {
    let subject = run.subject;
    for (leaf, index, room, number) in
        [(true, 2, 1_024, 0), (true, 3, 1_024, 11), (true, MAX, 0, 11), (false, 0, 1_024, 11), (true, 0, 1_023, 10)]
    {
        let what = format!("delete {index}, leaf {leaf}, room {room}");
        numbered(run, number, room, &what, |out, answer| subject.delete(&block(leaf), P, index, out, answer));
    }
}

fn branches(run: &mut Run) {
    let subject = run.subject;
    let large = "e".repeat(1 << 20);
    /// Leaf, original, key, child, room, number.
    type Case<'a> = (bool, Option<&'a str>, &'a str, u64, usize, u64);
    let cases: [Case; 19] = [
        (false, None, "c", 9, 1_024, 0),
        (false, None, "", 2, 1_024, 0),
        (false, None, "c", MAX, 1_024, 0),
        (false, Some("d"), "d", 9, 1_024, 0),
        (false, Some("d"), "c", 9, 1_024, 0),
        (false, Some("b"), "", 9, 1_024, 0),
        (false, Some("f"), "z", 9, 1_024, 0),
        (true, None, "c", 9, 1_024, 11),
        (false, None, "c", 1, 1_024, 11),
        (false, None, "d", 0, 1_024, 11),
        (false, None, "d", 9, 1_024, 14),
        (false, Some("c"), "c", 9, 1_024, 14),
        (false, Some("d"), "b", 9, 1_024, 14),
        (false, Some("d"), "a", 9, 1_024, 14),
        (false, Some("d"), "f", 9, 1_024, 14),
        (false, Some("b"), "e", 9, 0, 14),
        (false, Some("b"), &large, 9, 0, 14),
        (false, Some("d"), &large, 9, 0, 15),
        (false, None, "c", 9, 1_023, 10),
    ];
    for (leaf, original, key, child, room, number) in cases {
        let branch = Branch { original: original.map(str::as_bytes), key: key.as_bytes(), child };
        let what = format!("insert_branch {original:?}, {child}, leaf {leaf}, room {room}");
        numbered(run, number, room, &what, |out, answer| subject.insert_branch(&block(leaf), P, branch, out, answer));
    }
}

fn first_blocks(run: &mut Run) {
    let subject = run.subject;
    for (p, room, number) in [(P, 1_024, 0), (1_020, 4_096, 1), (P, 1_023, 10)] {
        numbered(run, number, room, &format!("new_leaf {p} {room}"), |out, answer| subject.new_leaf(p, 5, out, answer));
    }
    let large = vec![0; 1 << 20];
    let cases: [(u64, &[u8], u64, usize, u64); 6] = [
        (P, b"", 2, 1_024, 0),
        (1_020, b"", 1, 4_096, 1),
        (P, &large, 1, 0, 11),
        (P, &large, 2, 0, 15),
        (P, &large[64..], 2, 1 << 20, 0),
        (P, b"", 2, 1_023, 10),
    ];
    for (p, key, child, room, number) in cases {
        let what = format!("new_branch {p}, {} bytes, {child}, room {room}", key.len());
        numbered(run, number, room, &what, |out, answer| subject.new_branch(p, 5, key, child, out, answer));
    }
}

/// Twelve entries in pieces of 4, 3, 3 and 2, of one page each, and one node of two pages that is not split.
fn split_lists(run: &mut Run) {
    let subject = run.subject;
    let leaf = |values: &[usize]| {
        let item = |(i, length): (usize, &usize)| Item { tag: 0, key: vec![0, 0, 0, i as u8], value: vec![1; *length] };
        write_content(&Content { leaf: true, items: values.iter().enumerate().map(item).collect() }, P, 3, 0)
    };
    let (four, whole) = (leaf(&[96; 12]), leaf(&[6, 6, 6, 6, 896]));
    /// Block, N, page numbers, room, number.
    type Case<'a> = (&'a [u8], u64, &'a [u64], usize, u64);
    let cases: [Case; 17] = [
        (&four, 20, &[2, 3, 4, 5], 4_096, 0),
        (&four, 20, &[19, 2, 9, 4], 4_096, 0),
        (&four, 6, &[5, 4, 3, 2], 4_096, 0),
        (&four, 1, &[2, 3, 4, 5], 4_096, 1),
        (&four, 32_769, &[2, 3, 4, 5], 4_096, 1),
        (&four, 20, &[2, 3, 4], 4_096, 11),
        (&four, 20, &[2, 3, 4, 5, 6], 5_120, 11),
        (&four, 20, &[], 4_096, 11),
        (&four, 20, &[1, 3, 4, 5], 4_096, 11),
        (&four, 20, &[2, 3, 4, 20], 4_096, 11),
        (&four, 20, &[2, 3, 4, MAX], 0, 11),
        (&four, 20, &[2, 3, 2, 5], 4_096, 11),
        (&four, 20, &[2, 3, 4, 5], 4_095, 10),
        (&whole, 20, &[18], 2_048, 0),
        (&whole, 20, &[19], 2_048, 11),
        (&whole, 20, &[MAX], 2_048, 11),
        (&whole, 20, &[18], 2_047, 10),
    ];
    for (block, n, ids, room, number) in cases {
        let what = format!("split_write N {n}, {ids:?}, room {room}");
        numbered(run, number, room, &what, |out, answer| subject.split_write(block, P, n, ids, out, answer));
    }
}

/// A node of 1,048,576 bytes is the largest: one byte more is 15, though a wrong list comes first.
fn largest(run: &mut Run) {
    let subject = run.subject;
    for (length, number) in [(1_048_576 - 72, 0), (1_048_576 - 71, 15)] {
        let items = vec![Item { tag: 0, key: Vec::new(), value: vec![0; length] }];
        let block = write_content(&Content { leaf: true, items }, P, 3, 0);
        let what = format!("a value of {length} bytes");
        numbered(run, number, 0, &what, |_, answer| subject.size(&block, P, answer));
        numbered(run, number, 0, &what, |_, answer| subject.split(&block, P, &mut [], answer));
        numbered(run, number, block.len(), &what, |out, answer| {
            subject.split_write(&block, P, 2_000, &[2], out, answer)
        });
        numbered(run, 11, block.len(), &what, |out, answer| subject.split_write(&block, P, 2_000, &[1], out, answer));
        numbered(run, 0, 1_024, &what, |out, answer| subject.delete(&block, P, 0, out, answer));
    }
}
