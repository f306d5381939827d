//! Differences in blocks, nodes and the descent.

use oracle::probe::search::{self, Image};
use oracle::probe::{edit, write_content, Content, Item};
use subject::{ask, Branch, Lookup};

use super::Run;
use crate::make::fields::{get, put, put_header};

const P: u64 = 1_024;

pub fn run(run: &mut Run) {
    unset_bytes(run);
    replacement_out_of_order(run);
    branch_to_meta(run);
    large_node(run);
    short_bucket_value(run);
    missing_child(run);
    empty_below_root(run);
    empty_branch(run);
    keys_out_of_order(run);
    limits(run);
}

fn branch(pages: &[(&str, u64)]) -> Content {
    let items = pages.iter().map(|(key, page)| Item { tag: *page, key: key.as_bytes().to_vec(), value: Vec::new() });
    Content { leaf: false, items: items.collect() }
}

/// 1. Padding and what follows the content keep what the buffer held.
fn unset_bytes(run: &mut Run) {
    let leaf = Content { leaf: true, items: vec![Item { tag: 0, key: vec![5], value: vec![6] }] };
    let block = write_content(&leaf, P, 2, 0xAA);
    let unset = [&block[9..16], &block[33..40], &block[66..]].concat();
    run.tally.check(unset.iter().all(|byte| *byte == 0xAA), || "finding 1".into());
}

/// 2. A replacement that breaks the order is stored; 01 says 14.
fn replacement_out_of_order(run: &mut Run) {
    let block = write_content(&branch(&[("b", 7), ("d", 8)]), P, 2, 0);
    let stored = edit::insert_branch(&block, P, Some(b"d"), b"a", 9, 0);
    run.tally
        .same(stored, Some(write_content(&branch(&[("b", 7), ("a", 9)]), P, 2, 0)), || "finding 2, the crate".into());
    let change = Branch { original: Some(b"d"), key: b"a", child: 9 };
    let got = ask::<4>(|answer| run.subject.insert_branch(&block, P, change, &mut [0; 1_024], answer));
    run.tally.same(got.number, 14, || "finding 2".into());
}

/// 3. A branch entry to a meta page is stored in a release build; 01 says 11.
fn branch_to_meta(run: &mut Run) {
    let block = write_content(&branch(&[("b", 7)]), P, 2, 0);
    let stored = edit::insert_branch(&block, P, None, b"c", 1, 0);
    run.tally
        .same(stored, Some(write_content(&branch(&[("b", 7), ("c", 1)]), P, 2, 0)), || "finding 3, the crate".into());
    let change = Branch { original: None, key: b"c", child: 1 };
    let got = ask::<4>(|answer| run.subject.insert_branch(&block, P, change, &mut [0; 1_024], answer));
    run.tally.same(got.number, 11, || "finding 3".into());
}

/// 4. No node is too large; 01 says 15 above 1,048,576 bytes.
fn large_node(run: &mut Run) {
    let item = Item { tag: 0, key: Vec::new(), value: vec![0; 1_048_505] };
    let block = write_content(&Content { leaf: true, items: vec![item] }, P, 2, 0);
    run.tally.same((edit::size(&block, P), get(&block, 24)), (1_048_577, 1_024), || "finding 4, the crate".into());
    let got = ask::<6>(|answer| run.subject.size(&block, P, answer));
    run.tally.same(got.number, 15, || "finding 4".into());
}

/// 5. A bucket's value is read as 16 bytes whatever its size says; 01 says 5.
fn short_bucket_value(run: &mut Run) {
    let item = Item { tag: 1, key: vec![5], value: (0..16).collect() };
    let mut block = write_content(&Content { leaf: true, items: vec![item.clone()] }, P, 2, 0);
    put(&mut block, 56, 15);
    run.tally.same(search::val(&block, P, 0), [Some(Some(item.clone())), Some(Some(item))], || {
        "finding 5, the crate".into()
    });
    let got = ask::<5>(|answer| run.subject.index(&block, P, &[5], answer));
    run.tally.same((got.number, got.fields[3]), (5, 0), || "finding 5".into());
}

/// 6. A child of page 0 makes every key below it absent; either lookup says 2.
fn missing_child(run: &mut Run) {
    let image = [vec![0; 2_048], write_content(&branch(&[("b", 0)]), P, 2, 0)].concat();
    run.tally.same(Image::new(&image, P).get(2, b"b"), None, || "finding 6, the crate".into());
    for call in Lookup::BOTH {
        let got = call.by(run.subject, &image, (P, 3, 2), b"b");
        run.tally.same((got.number, got.fields), (2, [0; 7]), || format!("finding 6, {}", call.name()));
    }
}

/// 7. An empty page below the root, or an empty branch, holds no key; either lookup says 4.
fn empty_below_root(run: &mut Run) {
    let mut image = [vec![0; 2_048], write_content(&branch(&[("b", 3)]), P, 2, 0), vec![0; 1_024]].concat();
    for (root, page, kind) in [(2, 3, 2), (2, 3, 1), (3, 3, 1)] {
        put_header(&mut image[3_072..], 3, kind, 0, 0);
        run.tally.same(Image::new(&image, P).get(root, b"b"), None, || "finding 7, the crate".into());
        for call in Lookup::BOTH {
            let got = call.by(run.subject, &image, (P, 4, root), b"b");
            let expected = (4, [0, 0, 0, 0, page, 0, 0]);
            run.tally.same((got.number, got.fields), expected, || format!("finding 7, {}", call.name()));
        }
    }
}

/// 19. An empty branch takes an entry; 01 says 4.
fn empty_branch(run: &mut Run) {
    let mut block = vec![0; 1_024];
    put_header(&mut block, 2, 1, 0, 0);
    let stored = edit::insert_branch(&block, P, None, b"b", 7, 0);
    run.tally.same(stored, Some(write_content(&branch(&[("b", 7)]), P, 2, 0)), || "finding 19, the crate".into());
    let change = Branch { original: None, key: b"b", child: 7 };
    let got = ask::<4>(|answer| run.subject.insert_branch(&block, P, change, &mut [0; 1_024], answer));
    run.tally.same(got.number, 4, || "finding 19".into());
}

/// 20. A block with keys out of order is searched as it is, so that a key in it is not found; 01 says 6.
fn keys_out_of_order(run: &mut Run) {
    let block = write_content(&branch(&[("b", 7), ("d", 8), ("a", 9)]), P, 2, 0);
    run.tally.same(search::index(&block, P, b"a"), [(0, false); 2], || "finding 20, the crate".into());
    let got = ask::<5>(|answer| run.subject.index(&block, P, b"a", answer));
    run.tally.same((got.number, got.fields), (6, [0, 0, 0, 2, 0]), || "finding 20".into());
}

/// 21. Any page size, page count and depth is taken; 01 has limits.
fn limits(run: &mut Run) {
    let block = write_content(&branch(&[("b", 7)]), 131_072, 2, 0);
    run.tally.same(search::index(&block, 131_072, b"b"), [(0, true); 2], || "finding 21, a page of the crate".into());
    let got = ask::<5>(|answer| run.subject.index(&block, 131_072, b"b", answer));
    run.tally.same((got.number, got.fields), (1, [0; 5]), || "finding 21, page size".into());

    let image = chain(17);
    run.tally.check(Image::new(&image, P).get(2, b"b").is_some(), || "finding 21, 17 levels of the crate".into());
    let longest = [chain(2), vec![0; 32_765 * 1_024]].concat();
    for call in Lookup::BOTH {
        let got = call.by(run.subject, &image, (P, 19, 2), b"b");
        let expected = (9, [0, 0, 0, 0, 18, 0, 0]);
        run.tally.same((got.number, got.fields), expected, || format!("finding 21, levels, {}", call.name()));
        for (n, number) in [(32_768, 0), (32_769, 1)] {
            let got = call.by(run.subject, &longest, (P, n, 2), b"b");
            run.tally.same(got.number, number, || format!("finding 21, {n} pages, {}", call.name()));
        }
    }
}

/// An image whose root, page 2, has so many levels, one page each, down to a leaf with the key b.
fn chain(levels: u64) -> Vec<u8> {
    let mut image = vec![0; 2_048];
    for page in 2..levels + 1 {
        image.extend(write_content(&branch(&[("b", page + 1)]), P, page, 0));
    }
    let leaf = Content { leaf: true, items: vec![Item { tag: 0, key: b"b".to_vec(), value: vec![6] }] };
    image.extend(write_content(&leaf, P, levels + 1, 0));
    image
}
