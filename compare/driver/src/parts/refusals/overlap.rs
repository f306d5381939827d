//! Order 3: every page of a block is used once, by the tree's blocks, the freelist's and the free ids.

use oracle::probe::{write_content, Content, Item};

use super::Run;
use crate::make::fields::{freelist_block, put};
use crate::make::image::Image;

const P: u64 = 1_024;

/// Number, page and element.
type Fault = (u64, u64, u64);

/// The pages of the sound image: leaf 3 has two, leaf 6 three, the freelist two; 2, 5, 13 and 15 are free.
const LONG: u64 = 3;
const LONGER: u64 = 6;
const LAST: u64 = 9;
const ROOT: u64 = 10;
const FREELIST: u64 = 11;

fn item(tag: u64, key: &str, value: usize) -> Item {
    Item { tag, key: key.into(), value: vec![7; value] }
}

fn leaf(key: &str, value: usize) -> Content {
    Content { leaf: true, items: vec![item(0, key, value)] }
}

/// A branch of b, m and t to these pages.
fn branch(children: [u64; 3]) -> Content {
    let items = ["b", "m", "t"].iter().zip(children).map(|(key, page)| item(page, key, 0)).collect();
    Content { leaf: false, items }
}

fn put_block(image: &mut Image, page: u64, block: &[u8]) {
    let at = image.start(page);
    image.bytes[at..at + block.len()].copy_from_slice(block);
}

fn put_content(image: &mut Image, page: u64, content: &Content) {
    put_block(image, page, &write_content(content, P, page, 0));
}

/// The sound image, its leaves in the order of their pages, with these free ids.
fn listing(ids: &[u64]) -> Image {
    let mut image = Image { bytes: vec![0; 16 * 1_024], p: P, n: 16, root: ROOT, freelist: FREELIST };
    put_content(&mut image, LONG, &leaf("b", 1_500));
    put_content(&mut image, LONGER, &leaf("m", 2_500));
    put_content(&mut image, LAST, &leaf("t", 5));
    put_content(&mut image, ROOT, &branch([LONG, LONGER, LAST]));
    put_block(&mut image, FREELIST, &freelist_block(P, FREELIST, 2, ids));
    image
}

fn sound() -> Image {
    listing(&[2, 5, 13, 15])
}

/// The sound image with numbers changed: at a place of a page.
fn changed(changes: &[(u64, usize, u64)]) -> Image {
    let mut image = sound();
    for (page, at, number) in changes {
        let start = image.start(*page);
        put(&mut image.bytes, start + at, *number);
    }
    image
}

/// Holds the judge to a number, page and element.
fn refused(run: &mut Run, image: &Image, (number, page, element): Fault, what: &str) {
    let got = image.judged(run.subject);
    run.tally.same((got.number, got.fields), (number, [0, 0, page, element, 0]), || what.into());
}

/// Holds the judge to its counts.
fn passed(run: &mut Run, image: &Image, counts: [u64; 2], what: &str) {
    let got = image.judged(run.subject);
    run.tally.same((got.number, got.fields), (0, [counts[0], counts[1], 0, 0, 0]), || what.into());
}

pub fn run(run: &mut Run) {
    passed(run, &sound(), [3, 9], "blocks of several pages");
    passed(run, &listing(&[]), [3, 9], "no free ids");
    ids(run);
    leaves(run);
    order_of_rules(run);
    freelist_pages(run);
    long_block(run);
}

/// Free ids that are pages of blocks; the ids' own rules come first.
fn ids(run: &mut Run) {
    let cases: [(&[u64], Fault); 9] = [
        (&[2, 4, 13, 15], (8, FREELIST, 1)),
        (&[2, 5, 7, 13], (8, FREELIST, 2)),
        (&[8], (8, FREELIST, 0)),
        (&[2, 5, 12, 15], (8, FREELIST, 2)),
        (&[2, 5, 11, 12], (8, FREELIST, 2)),
        (&[2, 10, 12], (8, FREELIST, 1)),
        (&[2, 4, 7, 12], (8, FREELIST, 1)),
        (&[2, 4, 4, 15], (6, FREELIST, 2)),
        (&[2, 4, 3, 16], (5, FREELIST, 3)),
    ];
    for (ids, fault) in cases {
        refused(run, &listing(ids), fault, &format!("free ids {ids:?}"));
    }
    refused(run, &changed(&[(LONG, 24, 2)]), (8, FREELIST, 1), "a leaf over a page that is free");
    refused(run, &changed(&[(FREELIST, 24, 2)]), (8, FREELIST, 2), "a freelist over a page that it lists");
}

/// Leaves that share pages: the lowest of those is named, whichever leaf comes first.
fn leaves(run: &mut Run) {
    for overflow in 3..=6 {
        let next = changed(&[(LONG, 24, overflow)]);
        refused(run, &next, (8, LONGER, 0), &format!("a leaf over the next, overflow {overflow}"));
        let mut before = sound();
        put_content(&mut before, LAST, &leaf("b", 5));
        put_content(&mut before, LONG, &leaf("t", 1_500));
        put_content(&mut before, ROOT, &branch([LAST, LONGER, LONG]));
        let at = before.start(LONG) + 24;
        put(&mut before.bytes, at, overflow);
        refused(run, &before, (8, LONGER, 0), &format!("a leaf over those before, overflow {overflow}"));
    }
    for within in [LONGER + 1, LONGER + 2] {
        let mut image = sound();
        put_content(&mut image, within, &leaf("t", 5));
        put_content(&mut image, ROOT, &branch([LONG, LONGER, within]));
        refused(run, &image, (8, within, 0), "a leaf on an overflow page");
        put_content(&mut image, within, &leaf("b", 5));
        put_content(&mut image, ROOT, &branch([within, LONGER, LAST]));
        refused(run, &image, (8, within, 0), "a leaf whose overflow page was reached");
    }
}

/// Rule 4 comes before rule 3, and rule 3 before rules 5 to 8.
fn order_of_rules(run: &mut Run) {
    for (at, number, expected) in [(0, 7, 3), (8, 4, 3), (8, 9, 3), (24, 10, 3), (16, 0, 8), (16, 999, 8), (32, 9, 8)] {
        let image = changed(&[(LONG, 24, 3), (LONGER, at, number)]);
        refused(run, &image, (expected, LONGER, 0), &format!("a shared page with {number} at {at}"));
    }
    let twice = changed(&[(ROOT, 56, LONG)]);
    refused(run, &twice, (8, LONG, 0), "a page named twice");
    refused(run, &changed(&[(ROOT, 56, LONG + 1)]), (3, LONG + 1, 0), "a child that is an overflow page");
    refused(run, &changed(&[(ROOT, 56, ROOT)]), (8, ROOT, 0), "a branch that names itself");
    refused(run, &changed(&[(LONG, 24, 20), (ROOT, 56, LONG)]), (3, LONG, 0), "a block past the last page");
}

/// The freelist's block and those of the tree.
fn freelist_pages(run: &mut Run) {
    refused(run, &Image { freelist: LAST, ..sound() }, (3, LAST, 0), "a leaf as freelist page");
    refused(run, &Image { freelist: LONG + 1, ..sound() }, (3, LONG + 1, 0), "an overflow page as freelist page");
    let at = |page: u64, pages: u64, ids: &[u64]| {
        let mut image = Image { freelist: page, ..sound() };
        put_block(&mut image, page, &freelist_block(P, page, pages, ids)[..1_024]);
        image
    };
    refused(run, &at(LONG + 1, 1, &[]), (8, LONG + 1, 0), "a freelist on an overflow page");
    refused(run, &at(LONG + 1, 3, &[16]), (8, LONG + 1, 0), "a freelist that starts on an overflow page");
    refused(run, &at(5, 2, &[]), (8, LONGER, 0), "a freelist that ends on a leaf");
    refused(run, &at(5, 9, &[3, 2]), (8, LONGER, 0), "a freelist over three leaves and the root");
    let mut full = at(5, 2, &[]);
    put(&mut full.bytes, 5 * 1_024 + 16, 253);
    refused(run, &full, (8, LONGER, 0), "a count above the room, and a shared page");
    put(&mut full.bytes, 5 * 1_024 + 24, 11);
    refused(run, &full, (3, 5, 0), "a freelist past the last page, and shared pages");
    passed(run, &at(5, 1, &[2, 11, 12]), [3, 8], "a freelist elsewhere");
}

/// A block of 300 pages, whose marks lie in five words, before leaves 305 and 307 and the freelist's page.
fn long_block(run: &mut Run) {
    let long = |key: &str| leaf(key, 300 * 1_024 - 100);
    let mut image = Image { bytes: vec![0; 310 * 1_024], p: P, n: 310, root: 2, freelist: 306 };
    put_content(&mut image, 2, &branch([5, 305, 307]));
    put_content(&mut image, 5, &long("b"));
    put_content(&mut image, 305, &leaf("m", 5));
    put_content(&mut image, 307, &leaf("t", 5));
    for page in [5, 6, 63, 64, 65, 127, 128, 150, 191, 192, 255, 256, 303, 304] {
        put_block(&mut image, 306, &freelist_block(P, 306, 1, &[4, page, 308]));
        refused(run, &image, (8, 306, 1), &format!("page {page} of a block of 300 listed"));
    }
    put_block(&mut image, 306, &freelist_block(P, 306, 1, &[3, 4, 308]));
    passed(run, &image, [3, 304], "a block of 300 pages");
    let overflow = image.start(5) + 24;
    put(&mut image.bytes, overflow, 300);
    refused(run, &image, (8, 305, 0), "a block of 301 pages over the next");
    put(&mut image.bytes, overflow, 299);
    put_content(&mut image, 304, &leaf("m", 5));
    put_content(&mut image, 2, &branch([5, 304, 307]));
    refused(run, &image, (8, 304, 0), "a leaf on the last page of a block of 300");
    put_content(&mut image, 5, &long("m"));
    put_content(&mut image, 304, &leaf("b", 5));
    put_content(&mut image, 2, &branch([304, 5, 307]));
    refused(run, &image, (8, 304, 0), "a block of 300 pages, the last of which was reached");
}
