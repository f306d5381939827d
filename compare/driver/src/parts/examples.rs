//! 01's "Checks by example", P = 1,024, with the answers as it states them.

use oracle::probe::{write_content, Content, Item};
use reading::words::TABLE_WORDS;
use subject::{ask, Leaf};

use super::Run;

const P: u64 = 1_024;

pub fn run(run: &mut Run) {
    search(run);
    sizes(run);
    splits(run);
    allocations(run);
    whole_page(run);
}

fn search(run: &mut Run) {
    for leaf in [true, false] {
        let items =
            [b"b", b"d"].map(|key| Item { tag: if leaf { 0 } else { 7 }, key: key.to_vec(), value: Vec::new() });
        let block = write_content(&Content { leaf, items: items.to_vec() }, P, 5, 0);
        for (key, index, found) in [("a", 0, 0), ("b", 0, 1), ("c", 0, 0), ("e", 1, 0)] {
            let got = ask::<5>(|answer| run.subject.index(&block, P, key.as_bytes(), answer));
            run.tally.same((got.number, got.fields), (0, [index, found, 0, 0, 0]), || format!("index of {key}"));
        }
    }
}

/// A leaf whose entries have these payloads: keys of 4 bytes, values for the rest.
fn leaf(payloads: &[usize]) -> Vec<u8> {
    let item = |(i, payload): (usize, &usize)| Item {
        tag: 0,
        key: (i as u32).to_be_bytes().to_vec(),
        value: vec![7; payload - 4],
    };
    write_content(&Content { leaf: true, items: payloads.iter().enumerate().map(item).collect() }, P, 5, 0)
}

fn sizes(run: &mut Run) {
    for (payload, size, pages) in [(952, 1_024, 1), (953, 1_025, 2)] {
        let got = ask::<6>(|answer| run.subject.size(&leaf(&[payload]), P, answer));
        run.tally.same((got.number, got.fields), (0, [size, pages, 1, 0, 0, 0]), || format!("size {size}"));
    }
}

fn splits(run: &mut Run) {
    let cases: [(&[usize], &[u64]); 5] = [
        (&[100; 12], &[4, 7, 10]),
        (&[100; 8], &[4]),
        (&[164, 165, 165, 165, 165], &[3]),
        (&[163, 165, 165, 165, 165], &[]),
        (&[10, 10, 10, 10, 900], &[]),
    ];
    for (payloads, cuts) in cases {
        let mut list = [0; 8];
        let got = ask::<4>(|answer| run.subject.split(&leaf(payloads), P, &mut list, answer));
        let expected = (0, [cuts.len() as u64, 0, 0, 0], cuts);
        run.tally.same((got.number, got.fields, &list[..cuts.len()]), expected, || format!("split of {payloads:?}"));
    }
    let got = ask::<6>(|answer| run.subject.size(&leaf(&[10, 10, 10, 10, 900]), P, answer));
    run.tally.same((got.number, got.fields[1]), (0, 2), || "pages of 10, 10, 10, 10, 900".into());
}

fn allocations(run: &mut Run) {
    /// N, free pages, pages asked for, number and fields.
    type Case<'a> = (u64, &'a [u64], u64, (u64, [u64; 2]));
    let cases: [Case; 5] = [
        (20, &[2, 3, 7, 8, 9, 11], 3, (0, [7, 20])),
        (20, &[2, 3, 7, 8, 9, 11], 4, (0, [20, 24])),
        (20, &[4, 5, 6], 2, (0, [4, 20])),
        (32_767, &[], 1, (0, [32_767, 32_768])),
        (32_767, &[], 2, (12, [0, 0])),
    ];
    for (n, free, pages, expected) in cases {
        let mut table = vec![0; TABLE_WORDS];
        let made = ask::<0>(|answer| run.subject.free_new(&mut table, answer));
        let listed = ask::<0>(|answer| run.subject.free_init(&mut table, n, free, answer));
        let got = ask::<2>(|answer| run.subject.allocate(&mut table, n, P, pages * P, answer));
        let what = || format!("{pages} pages of {free:?}, N {n}");
        run.tally.same((made.number, listed.number, (got.number, got.fields)), (0, 0, expected), what);
    }
}

/// Page 5 with a to xy and b to nothing, from an empty leaf by two inserts.
fn whole_page(run: &mut Run) {
    let mut expected = vec![0; P as usize];
    for (at, number) in [(0, 5), (8, 2), (16, 2), (40, 64), (48, 1), (56, 2), (72, 35), (80, 1)] {
        expected[at] = number;
    }
    expected[96..100].copy_from_slice(&[0x61, 0x78, 0x79, 0x62]);
    let subject = run.subject;
    let mut block = vec![0xFF; P as usize];
    let mut numbers = vec![ask::<4>(|answer| subject.new_leaf(P, 5, &mut block, answer)).number];
    for (key, value) in [("b", ""), ("a", "xy")] {
        let mut out = vec![0xFF; P as usize];
        let entry = Leaf { key: key.as_bytes(), kind: 0, value: value.as_bytes() };
        numbers.push(ask::<4>(|answer| subject.insert(&block, P, entry, &mut out, answer)).number);
        block = out;
    }
    run.tally.same((numbers, block), (vec![0; 3], expected), || "page 5, a to xy, b to nothing".into());
}
