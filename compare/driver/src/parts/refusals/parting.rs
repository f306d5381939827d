//! Order 2: how many bytes two keys have in common where they are out of order, or one out of its range.

use oracle::probe::{write_content, Content, Item};
use subject::Lookup;

use super::block::every_call;
use super::Run;
use crate::make::fields::freelist_block;
use crate::make::image::Image;

const P: u64 = 1_024;
const ROOT: u64 = 2;
const LEFT: u64 = 3;
const RIGHT: u64 = 4;
const FREELIST: u64 = 5;
const BELOW: u64 = 6;

/// Lengths around those of the words that a comparison may go by.
const LENGTHS: [usize; 17] = [0, 1, 2, 3, 7, 8, 9, 11, 15, 16, 17, 23, 24, 25, 31, 32, 300];

/// A key, one below it or equal to it, and how long their common beginning is.
struct Pair {
    above: Vec<u8>,
    below: Vec<u8>,
    common: u64,
}

/// Pairs of each length: that part with a byte, or with more after it; the one the other's beginning; the same.
fn pairs() -> Vec<Pair> {
    let tails: [(&[u8], &[u8]); 9] = [
        (b"b", b"a"),
        (&[0x80], &[0x7F]),
        (&[0xFF], &[0x00]),
        (&[0x01], &[0x00]),
        (b"b and the rest alike", b"a and the rest alike"),
        (b"bb", b"a and more"),
        (b"a", b""),
        (&[0; 9], &[]),
        (b"", b""),
    ];
    let pair = |length: usize, (above, below): (&[u8], &[u8])| {
        let stem: Vec<u8> = (0..length).map(|i| b'k' + (i % 7) as u8).collect();
        let [above, below] = [above, below].map(|tail| [stem.as_slice(), tail].concat());
        Pair { above, below, common: length as u64 }
    };
    LENGTHS.iter().flat_map(|length| tails.map(|tails| pair(*length, tails))).collect()
}

pub fn run(run: &mut Run) {
    for pair in pairs() {
        blocks(run, &pair);
        orders(run, &pair);
        ranges(run, &pair);
    }
    nearer_end(run);
}

/// A leaf, or a branch to a page, of these keys.
fn content(leaf: bool, tag: u64, keys: &[&[u8]]) -> Content {
    let item = |key: &&[u8]| Item { tag, key: key.to_vec(), value: Vec::new() };
    Content { leaf, items: keys.iter().map(item).collect() }
}

/// The image of these blocks and an empty freelist.
fn image(blocks: &[(u64, Content)]) -> Image {
    let mut image = Image { bytes: vec![0; 8 * 1_024], p: P, n: 8, root: ROOT, freelist: FREELIST };
    let written = |(page, content): &(u64, Content)| (*page, write_content(content, P, *page, 0));
    for (page, block) in blocks.iter().map(written).chain([(FREELIST, freelist_block(P, FREELIST, 1, &[]))]) {
        let at = image.start(page);
        image.bytes[at..at + block.len()].copy_from_slice(&block);
    }
    image
}

/// Holds the judge to a number, page, element and common beginning.
fn refused(run: &mut Run, image: &Image, [number, page, element, common]: [u64; 4], what: &str) {
    let got = image.judged(run.subject);
    run.tally.same((got.number, got.fields), (number, [0, 0, page, element, common]), || what.into());
}

/// A single block with the lower key after the other, as its second or its third.
fn blocks(run: &mut Run, pair: &Pair) {
    let Pair { above, below, common } = pair;
    for leaf in [true, false] {
        let tag = if leaf { 0 } else { 7 };
        let two = write_content(&content(leaf, tag, &[above, below]), P, 3, 0);
        every_call(run, &two, P, (6, 1, *common));
        if !above.is_empty() {
            let three = write_content(&content(leaf, tag, &[b"", above, below]), P, 3, 0);
            every_call(run, &three, P, (6, 2, *common));
        }
    }
}

/// A leaf, or a branch, with the lower key after the other: the judge and the full lookup of any key.
fn orders(run: &mut Run, Pair { above, below, common }: &Pair) {
    for leaf in [true, false] {
        let image = image(&[(ROOT, content(leaf, if leaf { 0 } else { LEFT }, &[above, below]))]);
        let what = format!("{below:?} after {above:?}, leaf {leaf}");
        refused(run, &image, [6, ROOT, 1, *common], &what);
        for key in [b"".as_slice(), above, below, b"z"] {
            let got = image.looked(Lookup::Full, run.subject, key);
            run.tally.same((got.number, got.fields), (6, [0, 0, 0, 0, ROOT, 1, *common]), || what.clone());
        }
    }
}

/// A leaf, or a branch, whose key is outside of its range: the lower below the lower end, the other past the upper end.
fn ranges(run: &mut Run, Pair { above, below, common }: &Pair) {
    for leaf in [true, false] {
        let under = |key: &[u8]| content(leaf, if leaf { 0 } else { BELOW }, &[key]);
        if above != below {
            let root = content(false, LEFT, &[above]);
            let what = format!("{below:?} below the lower end {above:?}");
            refused(run, &image(&[(ROOT, root), (LEFT, under(below))]), [7, LEFT, 0, *common], &what);
        }
        if !below.is_empty() {
            let mut root = content(false, LEFT, &[b"", below]);
            root.items[1].tag = RIGHT;
            let what = format!("{above:?} past the upper end {below:?}");
            refused(run, &image(&[(ROOT, root), (LEFT, under(above))]), [7, LEFT, 0, *common], &what);
        }
    }
}

/// The end that is crossed counts, though the key has more in common with the other; below a branch, its upper end.
fn nearer_end(run: &mut Run) {
    let ends = |low: &[u8], high: &[u8], key: &[u8]| {
        let mut root = content(false, LEFT, &[low, high]);
        root.items[1].tag = RIGHT;
        image(&[(ROOT, root), (LEFT, content(true, 0, &[low, key]))])
    };
    refused(run, &ends(b"account-0010", b"b", b"bccount-0010"), [7, LEFT, 1, 1], "the lower end is nearer");
    refused(run, &ends(b"a", b"account-0010", b"account-0011"), [7, LEFT, 1, 11], "the upper end is nearer");
    let mut root = content(false, LEFT, &[b"b", b"m12345678"]);
    root.items[1].tag = RIGHT;
    let [middle, leaf] = [content(false, BELOW, &[b"c"]), content(true, 0, &[b"d", b"m12345679"])];
    refused(run, &image(&[(ROOT, root), (LEFT, middle), (BELOW, leaf)]), [7, BELOW, 1, 8], "an end from two levels up");
    let mut below = ends(b"m12345678", b"m1234567899", b"m123456789");
    let at = below.start(LEFT) + 32 + 2 * 32 + 8;
    below.bytes[at] = b'7';
    refused(run, &below, [7, LEFT, 0, 8], "the upper end is nearer, the lower is crossed");
}
