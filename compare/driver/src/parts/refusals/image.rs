//! Images: a sound one, and what the judge and both lookups say when it is changed.

use oracle::probe::{write_content, Content, Item};
use subject::{ask, Lookup};

use super::Run;
use crate::make::fields::{freelist_block, put, put_header};

pub const P: u64 = 1_024;
pub const N: u64 = 10;
pub const MAX: u64 = u64::MAX;

/// Where the fields of the sound image lie: pages 2 (root), 3 and 4 (leaves), 5 (freelist).
pub const ROOT: usize = 2 * 1_024;
pub const LEFT: usize = 3 * 1_024;
pub const RIGHT: usize = 4 * 1_024;
const FREE: usize = 5 * 1_024;

/// A change: so many numbers put at these places.
pub type Change<'a> = &'a [(usize, u64)];
/// Number, page, element and common beginning.
type Fault = (u64, u64, u64, u64);

/// Root 2 with b to leaf 3 (b, c) and m to leaf 4 (m, and z a bucket); freelist 5 with 6, 7 and 9.
fn sound() -> Vec<u8> {
    let item = |tag, key: &str, value: &[u8]| Item { tag, key: key.into(), value: value.into() };
    let branch = Content { leaf: false, items: vec![item(3, "b", b""), item(4, "m", b"")] };
    let left = Content { leaf: true, items: vec![item(0, "b", b"1"), item(0, "c", b"22")] };
    let right = Content { leaf: true, items: vec![item(0, "m", b"3"), item(1, "z", &[9; 16])] };
    let mut image = vec![0; (N * P) as usize];
    image[ROOT..LEFT].copy_from_slice(&write_content(&branch, P, 2, 0));
    image[LEFT..RIGHT].copy_from_slice(&write_content(&left, P, 3, 0));
    image[RIGHT..FREE].copy_from_slice(&write_content(&right, P, 4, 0));
    image[FREE..FREE + 1_024].copy_from_slice(&freelist_block(P, 5, 1, &[6, 7, 9]));
    image
}

pub fn run(run: &mut Run) {
    geometry(run);
    roots(run);
    pages(run);
    ranges(run);
    freelist(run);
    levels(run);
    absent(run);
}

fn judged(run: &mut Run, image: &[u8], (p, n): (u64, u64), root: u64, freelist: u64, fault: Fault) {
    let got = ask::<5>(|answer| run.subject.judge(image, p, n, root, freelist, answer));
    let expected = (fault.0, [0, 0, fault.1, fault.2, fault.3]);
    run.tally.same((got.number, got.fields), expected, || format!("judge P {p} N {n} root {root} freelist {freelist}"));
}

/// Holds both lookups to the same answer without an entry.
fn looked(run: &mut Run, image: &[u8], (p, n): (u64, u64), root: u64, key: &str, fault: Fault) {
    Lookup::BOTH.into_iter().for_each(|call| looked_by(call, run, image, (p, n, root), key, fault));
}

fn looked_by(call: Lookup, run: &mut Run, image: &[u8], numbers: (u64, u64, u64), key: &str, fault: Fault) {
    let got = call.by(run.subject, image, numbers, key.as_bytes());
    let expected = (fault.0, [0, 0, 0, 0, fault.1, fault.2, fault.3]);
    run.tally.same((got.number, got.fields), expected, || format!("{} of {key}, {numbers:?}", call.name()));
}

fn geometry(run: &mut Run) {
    let image = sound();
    for size in [
        (0, N),
        (1_016, N),
        (1_020, N),
        (1_028, N),
        (65_544, 2),
        (MAX, N),
        (P, 0),
        (P, 1),
        (P, 11),
        (P, 32_769),
        (P, MAX),
    ] {
        judged(run, &image, size, 0, 0, (1, 0, 0, 0));
        looked(run, &image, size, 0, "b", (1, 0, 0, 0));
    }
    judged(run, &image[1..], (P, N), 2, 5, (1, 0, 0, 0));
    let longer = [image, vec![7; 3]].concat();
    let got = ask::<5>(|answer| run.subject.judge(&longer, P, N, 2, 5, answer));
    run.tally.same((got.number, got.fields), (0, [4, 4, 0, 0, 0]), || "the sound image".into());
}

fn roots(run: &mut Run) {
    let image = sound();
    for root in [0, 1, 10, 32_768, MAX] {
        judged(run, &image, (P, N), root, 5, (2, root, 0, 0));
        looked(run, &image, (P, N), root, "b", (2, root, 0, 0));
        judged(run, &image, (P, N), 2, root, (2, root, 0, 0));
    }
    for root in [5, 6] {
        judged(run, &image, (P, N), root, 5, (3, root, 0, 0));
        looked(run, &image, (P, N), root, "b", (3, root, 0, 0));
    }
    for freelist in [3, 6] {
        judged(run, &image, (P, N), 2, freelist, (3, freelist, 0, 0));
    }
}

/// Where in the image the first element of leaf 3 has its pos, key size and value size.
const POS: usize = LEFT + 40;
const KEY_SIZE: usize = LEFT + 48;
const VALUE_SIZE: usize = LEFT + 56;

/// Changes that break rules 2, 4, 5, 6 and 7 in leaf 3, or in the root for it, and the fault of each.
const BREACHES: [(Change, Fault); 27] = [
    (&[(ROOT + 32, 1)], (2, 1, 0, 0)),
    (&[(ROOT + 32, MAX)], (2, MAX, 0, 0)),
    (&[(LEFT, 4)], (3, 3, 0, 0)),
    (&[(LEFT + 8, 3)], (3, 3, 0, 0)),
    (&[(LEFT + 8, 4)], (3, 3, 0, 0)),
    (&[(LEFT + 24, 7)], (3, 3, 0, 0)),
    (&[(LEFT + 24, MAX)], (3, 3, 0, 0)),
    (&[(LEFT + 24, MAX - 2)], (3, 3, 0, 0)),
    (&[(LEFT + 16, 0)], (4, 3, 0, 0)),
    (&[(ROOT + 16, 0)], (4, 2, 0, 0)),
    (&[(LEFT + 16, 32)], (4, 3, 0, 0)),
    (&[(LEFT + 16, 1 << 59)], (4, 3, 0, 0)),
    (&[(LEFT + 16, MAX)], (4, 3, 0, 0)),
    (&[(LEFT + 16, 31)], (5, 3, 0, 0)),
    (&[(POS, 63)], (5, 3, 0, 0)),
    (&[(POS, 0)], (5, 3, 0, 0)),
    (&[(POS, 1_024 - 32 - 1)], (5, 3, 0, 0)),
    (&[(POS, MAX)], (5, 3, 0, 0)),
    (&[(POS, 70), (KEY_SIZE, MAX - 60)], (5, 3, 0, 0)),
    (&[(VALUE_SIZE, MAX - 90)], (5, 3, 0, 0)),
    (&[(VALUE_SIZE, 928)], (5, 3, 0, 0)),
    (&[(LEFT + 64, 2)], (5, 3, 1, 0)),
    (&[(LEFT + 64, 1)], (5, 3, 1, 0)),
    (&[(LEFT + 96, 0x61_31_62)], (6, 3, 1, 0)),
    (&[(LEFT + 96, 0x62_31_62)], (6, 3, 1, 1)),
    (&[(LEFT + 96, 0x62_31_62), (LEFT + 64, 2)], (5, 3, 1, 0)),
    (&[(LEFT + 64, 2), (LEFT + 8, 9)], (3, 3, 0, 0)),
];

/// Breaches of rules 2, 4, 5, 6 and 7 in leaf 3, which both judge and full lookup of c meet; the quick lookup sees those
/// of whole pages, and that c itself, the first that it looks at there, breaks rule 6.
fn pages(run: &mut Run) {
    for (change, fault) in BREACHES {
        let image = changed(change);
        judged(run, &image, (P, N), 2, 5, fault);
        looked_by(Lookup::Full, run, &image, (P, N, 2), "c", fault);
        if fault.0 < 5 || (fault.0, fault.2) == (5, 1) {
            looked_by(Lookup::Quick, run, &image, (P, N, 2), "c", fault);
        }
    }
    let mut whole = changed(&[(ROOT + 32, 6), (LEFT, 6), (LEFT + 24, 3), (VALUE_SIZE, 3_999), (FREE + 16, 0)]);
    whole.copy_within(LEFT..RIGHT, 6 * 1_024);
    let got = ask::<5>(|answer| run.subject.judge(&whole, P, N, 2, 5, answer));
    run.tally.same((got.number, got.fields), (0, [4, 7, 0, 0, 0]), || "a block up to the last page".into());
}

/// The sound image with these changes.
pub fn changed(change: Change) -> Vec<u8> {
    let mut image = sound();
    change.iter().for_each(|(at, number)| put(&mut image, *at, *number));
    image
}

/// Breaches that only the judge looks for: either lookup of c still finds it.
fn ranges(run: &mut Run) {
    let cases: [(Change, Fault); 5] = [
        (&[(LEFT + 96, 0x32_32_63_31_61)], (7, 3, 0, 0)),
        (&[(LEFT + 96, 0x63_31_62), (ROOT + 80, 0x63_62)], (7, 3, 1, 1)),
        (&[(RIGHT + 96, 0x7A_33_6C)], (7, 4, 0, 0)),
        (&[(ROOT + 56, 3)], (8, 3, 0, 0)),
        (&[(ROOT + 56, 2)], (8, 2, 0, 0)),
    ];
    for (change, fault) in cases {
        let image = changed(change);
        judged(run, &image, (P, N), 2, 5, fault);
    }
    let image = changed(&[(LEFT + 96, 0x32_32_63_31_61), (ROOT + 56, 2)]);
    for call in Lookup::BOTH {
        let got = call.by(run.subject, &image, (P, N, 2), b"c");
        let expected = (0, [1, 0, LEFT as u64 + 99, 2, 0, 0, 0]);
        run.tally.same((got.number, got.fields), expected, || format!("{} of c", call.name()));
    }
    nested_range(run);
}

/// The upper end of a branch that holds for its last child: root 2, branch 3 (a to 6), branch 4; leaf 6 holds m.
fn nested_range(run: &mut Run) {
    let item = |tag, key: &str| Item { tag, key: key.into(), value: Vec::new() };
    let mut image = sound();
    let branch = Content { leaf: false, items: vec![item(6, "b")] };
    let leaf = Content { leaf: true, items: vec![item(0, "c"), item(0, "m")] };
    image[LEFT..RIGHT].copy_from_slice(&write_content(&branch, P, 3, 0));
    image[6 * 1_024..7 * 1_024].copy_from_slice(&write_content(&leaf, P, 6, 0));
    judged(run, &image, (P, N), 2, 5, (7, 6, 1, 1));
}

fn freelist(run: &mut Run) {
    let cases: [(Change, Fault); 15] = [
        (&[(FREE, 6)], (3, 5, 0, 0)),
        (&[(FREE + 8, 2)], (3, 5, 0, 0)),
        (&[(FREE + 24, 5)], (3, 5, 0, 0)),
        (&[(FREE + 16, 125)], (4, 5, 0, 0)),
        (&[(FREE + 16, 1 << 61)], (4, 5, 0, 0)),
        (&[(FREE + 16, 124)], (5, 5, 3, 0)),
        (&[(FREE + 32, 1)], (5, 5, 0, 0)),
        (&[(FREE + 48, 10)], (5, 5, 2, 0)),
        (&[(FREE + 40, 6)], (6, 5, 1, 0)),
        (&[(FREE + 48, 6)], (6, 5, 2, 0)),
        (&[(FREE + 32, 7), (FREE + 48, MAX)], (5, 5, 2, 0)),
        (&[(FREE + 32, 2)], (8, 5, 0, 0)),
        (&[(FREE + 32, 5)], (8, 5, 0, 0)),
        (&[(FREE + 32, 3), (FREE + 40, 4)], (8, 5, 0, 0)),
        (&[(FREE + 32, 3), (FREE + 48, 7)], (6, 5, 2, 0)),
    ];
    for (change, fault) in cases {
        judged(run, &changed(change), (P, N), 2, 5, fault);
    }
    let got = ask::<5>(|answer| run.subject.judge(&changed(&[(FREE + 16, 0)]), P, N, 2, 5, answer));
    run.tally.same((got.number, got.fields), (0, [4, 4, 0, 0, 0]), || "an empty freelist".into());
}

/// A path of branches from page 2 on: 15 of them over a leaf pass, the seventeenth level does not.
fn levels(run: &mut Run) {
    for branches in [15, 16, 17] {
        let n = branches + 5;
        let mut image = vec![0; (n * P) as usize];
        for page in 2..2 + branches {
            let items = vec![Item { tag: page + 1, key: vec![5], value: Vec::new() }];
            put_block(&mut image, page, &write_content(&Content { leaf: false, items }, P, page, 0));
        }
        let items = vec![Item { tag: 0, key: vec![5], value: vec![6] }];
        put_block(&mut image, 2 + branches, &write_content(&Content { leaf: true, items }, P, 2 + branches, 0));
        put_block(&mut image, n - 1, &freelist_block(P, n - 1, 1, &[]));
        if branches > 15 {
            judged(run, &image, (P, n), 2, n - 1, (9, 18, 0, 0));
            looked(run, &image, (P, n), 2, "\u{5}", (9, 18, 0, 0));
            continue;
        }
        let got = ask::<5>(|answer| run.subject.judge(&image, P, n, 2, n - 1, answer));
        run.tally.same((got.number, got.fields), (0, [1, 17, 0, 0, 0]), || "sixteen levels".into());
        for call in Lookup::BOTH {
            let got = call.by(run.subject, &image, (P, n, 2), &[5]);
            let expected = (0, [1, 0, 17 * P + 65, 1, 0, 0, 0]);
            run.tally.same((got.number, got.fields), expected, || format!("{} at level 16", call.name()));
        }
    }
}

fn put_block(image: &mut [u8], page: u64, block: &[u8]) {
    let at = (page * P) as usize;
    image[at..at + block.len()].copy_from_slice(block);
}

/// Keys that are not there, one below every separator among them, and a root that is an empty leaf.
fn absent(run: &mut Run) {
    let mut image = sound();
    for key in ["", "a", "bb", "d", "n", "zz"] {
        looked(run, &image, (P, N), 2, key, (0, 0, 0, 0));
    }
    put_header(&mut image[6 * 1_024..], 6, 2, 0, 0);
    looked(run, &image, (P, N), 6, "a", (0, 0, 0, 0));
    let got = ask::<5>(|answer| run.subject.judge(&image, P, N, 6, 9, answer));
    run.tally.same(got.number, 3, || "freelist on a page of zeros".into());
}
