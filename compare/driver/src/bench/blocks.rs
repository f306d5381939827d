//! Search, edits and split of one node, beside the crate's.

use std::hint::black_box;

use oracle::probe::speed::Blocks;
use oracle::probe::{write_content, Content, Item};
use proved::Proved;
use subject::{Branch, Leaf, Subject};

use super::timing::{grouped, keep, Race, Table};
use crate::rng::Rng;

const P: u64 = 4_096;
const CALLS: usize = 100;
/// The least page size and the greatest page count.
const LEAST_P: u64 = 1_024;
const MOST_N: u64 = 32_768;

/// Times the calls on a leaf and a branch of about a page, and the split of a leaf of four pages and of one of 1 MB.
pub fn run(table: &mut Table) {
    let mut rng = Rng::new(2);
    let leaf = content(&mut rng, true, 18, 150);
    let branch = content(&mut rng, false, 60, 0);
    let long = content(&mut rng, true, 80, 150);
    let block = write_content(&leaf, P, 2, 0);
    index(table, &leaf, &block);
    edits(table, &leaf, &block);
    insert_branch(table, &branch, &write_content(&branch, P, 2, 0));
    splits(table, &write_content(&long, P, 2, 0));
    split_wide(table, &content(&mut rng, true, 3_900, 210));
}

/// So many entries of realistic keys, with values of so many bytes.
fn content(rng: &mut Rng, leaf: bool, count: u64, value: usize) -> Content {
    let item = |i: u64| Item {
        tag: if leaf { 0 } else { 2 + i },
        key: format!("account-{:08}/Ayla-{i}", i * 10).into_bytes(),
        value: rng.bytes(value),
    };
    Content { leaf, items: (0..count).map(item).collect() }
}

fn race(call: &str, peer: &'static str, goal: f64) -> Race {
    Race { call: call.into(), peer, times: CALLS, goal: Some(goal) }
}

fn again(mut call: impl FnMut() -> u64) -> impl FnMut() {
    move || (0..CALLS).for_each(|_| keep(call()))
}

fn index(table: &mut Table, leaf: &Content, block: &[u8]) {
    let by_crate = Blocks::new(block, P, 1);
    let key = &leaf.items[11].key;
    let ours = || Proved.index(black_box(block), P, key, &mut [0; 40]);
    let call = "index, the whole block checked first";
    table.race(
        race(call, "the crate's index, which checks nothing", 4.0),
        again(ours),
        again(|| by_crate.index(black_box(key)).0 as u64),
    );
}

fn edits(table: &mut Table, leaf: &Content, block: &[u8]) {
    let mut out = vec![0; 2 * P as usize];
    let mut by_crate = Blocks::new(block, P, 2);
    let key = b"account-00000085/Brand-9".to_vec();
    let entry = Item { tag: 0, key, value: vec![7; 150] };
    let new = Leaf { key: &entry.key, kind: 0, value: &entry.value };
    table.race(
        race("insert, node read and written", "from_page, insert_data, write_node", 1.0),
        again(|| Proved.insert(black_box(block), P, new, &mut out, &mut [0; 32])),
        again(|| by_crate.insert(black_box(&entry))),
    );
    let last = leaf.items.len() as u64 / 2;
    table.race(
        race("delete, node read and written", "from_page, delete, write_node", 1.0),
        again(|| Proved.delete(black_box(block), P, last, &mut out, &mut [0; 72])),
        again(|| by_crate.delete(black_box(last as usize))),
    );
}

fn insert_branch(table: &mut Table, branch: &Content, block: &[u8]) {
    let mut out = vec![0; 2 * P as usize];
    let mut by_crate = Blocks::new(block, P, 2);
    let key = [branch.items[30].key.as_slice(), b"+"].concat();
    let new = Branch { original: None, key: &key, child: 9 };
    table.race(
        race("insert_branch, node read and written", "from_page, insert_branch, write_node", 1.0),
        again(|| Proved.insert_branch(black_box(block), P, new, &mut out, &mut [0; 32])),
        again(|| by_crate.insert_branch(black_box(&key), 9)),
    );
}

fn splits(table: &mut Table, block: &[u8]) {
    let mut by_crate = Blocks::new(block, P, 4);
    let mut cuts = [0; 64];
    table.race(
        race("split of 80 entries, the cuts", "from_page, split", 1.0),
        again(|| Proved.split(black_box(block), P, &mut cuts, &mut [0; 32])),
        again(|| by_crate.split() as u64),
    );
    let pages: Vec<u64> = (0..by_crate.split() as u64).map(|i| 2 + i).collect();
    let mut out = vec![0; 32 * P as usize];
    assert_eq!(Proved.split_write(block, P, 64, &pages, &mut out, &mut [0; 40]), 0, "written");
    table.race(
        race("split of 80 entries, the pieces written", "from_page, split, write_node", 1.0),
        again(|| Proved.split_write(black_box(block), P, 64, &pages, &mut out, &mut [0; 40])),
        again(|| by_crate.split_write()),
    );
}

/// The split of a leaf of about the greatest size into pieces of two entries, at the least page size.
fn split_wide(table: &mut Table, leaf: &Content) {
    let block = write_content(leaf, LEAST_P, 2, 0);
    let mut by_crate = Blocks::new(&block, LEAST_P, 1);
    let pieces = by_crate.split();
    let pages: Vec<u64> = (0..pieces as u64).map(|i| 2 + i).collect();
    let mut out = vec![0; pieces * LEAST_P as usize];
    let mut ours = || Proved.split_write(black_box(&block), LEAST_P, MOST_N, &pages, &mut out, &mut [0; 40]);
    assert_eq!(ours(), 0, "written");
    let call = format!("split of a node of {} pieces, the pieces written", grouped(pieces));
    let race = Race { call, peer: "from_page, split, write_node", times: 1, goal: Some(1.0) };
    table.race(race, || keep(ours()), || keep(by_crate.split_write()));
}
