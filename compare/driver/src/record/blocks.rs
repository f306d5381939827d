//! Search in single blocks, their size, and edits.

use oracle::probe::{edit, search, write_content, Content, Item};

use super::tape::{Call, Record, Tape};
use crate::make::{block, content, loose};
use crate::parts::node::replaces_in_order;
use crate::rng::Rng;

/// A sound block and what it holds.
struct Case {
    block: Vec<u8>,
    content: Content,
    p: u64,
}

pub fn record(rng: &mut Rng, tape: &mut Tape) {
    for round in 0..110 {
        let (leaf, branch) = (case(rng, true), case(rng, false));
        let case = if round % 2 == 0 { &leaf } else { &branch };
        (0..3).for_each(|_| index(rng, tape, case));
        index_page(rng, tape, case);
        size(tape, case);
        (0..2).for_each(|_| insert(rng, tape, &leaf));
        (0..2).for_each(|_| delete(rng, tape, &leaf));
        (0..3).for_each(|_| insert_branch(rng, tape, &branch));
        if round % 2 == 0 {
            new_blocks(rng, tape);
        }
        if round % 10 == 0 {
            wrong_kind(rng, tape, &leaf, &branch);
        }
    }
}

/// A page size, mostly the lowest.
pub fn page_size(rng: &mut Rng) -> u64 {
    rng.pick(&[1_024, 1_024, 1_024, 1_024, 1_024, 1_032, 2_048, 4_096])
}

/// A block of few entries as the crate writes it, or rarely a loose one, or one at a limit of its size.
fn case(rng: &mut Rng, leaf: bool) -> Case {
    let p = page_size(rng);
    let id = rng.between(2, 40_000);
    let count = rng.below(8).max(usize::from(!leaf));
    let few = content::content(rng, leaf, count, 64);
    let (block, content) = match rng.below(20) {
        0 if p <= 1_032 => loose::windows(rng, leaf, 1_024, id),
        1 if p <= 1_032 => (loose::spread(rng, &few, 1_024, id, content::size(&few).div_ceil(1_024)), few),
        2 => {
            let content = thinned(block::at_limit(rng, leaf, 1_024));
            (write_content(&content, 1_024, id, 0), content)
        }
        _ => (write_content(&few, p, id, 0), few),
    };
    let p = block.len() as u64 / (1 + u64::from_le_bytes(block[24..32].try_into().unwrap()));
    Case { block, content, p }
}

/// The content, whose keys differ in their first byte, with zeros in every other value and in long keys, to pack well.
pub fn thinned(mut content: Content) -> Content {
    content.items.iter_mut().step_by(2).for_each(|item| item.value.fill(0));
    content.items.iter_mut().filter(|item| item.key.len() > 30).for_each(|item| item.key[2..].fill(0));
    content
}

/// A key of the content, one just above it, or any.
fn key(rng: &mut Rng, content: &Content) -> Vec<u8> {
    if content.items.is_empty() || rng.one_in(3) {
        return content::key(rng);
    }
    let key = rng.pick(&content.items).key;
    match rng.one_in(2) {
        true => key,
        false => [key.as_slice(), &[0]].concat(),
    }
}

fn index(rng: &mut Rng, tape: &mut Tape, case: &Case) {
    let key = key(rng, &case.content);
    let [(i, found), _] = search::index(&case.block, case.p, &key);
    let fields = [i as u64, u64::from(found), 0, 0, 0];
    let arguments = [case.p];
    let asked = Record { call: Call::Index, arguments: &arguments, block: &case.block, key: &key, ..Record::default() };
    tape.add(&Record { fields: &fields, ..asked });
}

fn index_page(rng: &mut Rng, tape: &mut Tape, case: &Case) {
    let i = rng.below(case.content.items.len() + 2);
    let [page, _] = search::index_page(&case.block, case.p, i);
    tape.add(&Record {
        call: Call::IndexPage,
        number: if page.is_some() { 0 } else { 11 },
        arguments: &[case.p, i as u64],
        block: &case.block,
        fields: &[page.unwrap_or(0), 0, 0, 0],
        ..Record::default()
    });
}

fn size(tape: &mut Tape, case: &Case) {
    let size = edit::size(&case.block, case.p);
    let merging = u64::from(edit::needs_merging(&case.block, case.p));
    tape.add(&Record {
        call: Call::Size,
        arguments: &[case.p],
        block: &case.block,
        fields: &[size, size.div_ceil(case.p), merging, 0, 0, 0],
        ..Record::default()
    });
}

fn insert(rng: &mut Rng, tape: &mut Tape, case: &Case) {
    let key = key(rng, &case.content);
    let entry = content::item(rng, true, key, 64);
    insert_entry(rng, tape, case, &entry);
}

fn insert_entry(rng: &mut Rng, tape: &mut Tape, case: &Case, entry: &Item) {
    let arguments = [case.p, entry.tag];
    let asked = Record { call: Call::Insert, arguments: &arguments, block: &case.block, ..Record::default() };
    let asked = Record { key: &entry.key, other: &entry.value, ..asked };
    edited(rng, tape, asked, edit::insert(&case.block, case.p, entry, 0), &[], 11);
}

fn delete(rng: &mut Rng, tape: &mut Tape, case: &Case) {
    let index = rng.below(case.content.items.len() + 1);
    let arguments = [case.p, index as u64];
    let asked = Record { call: Call::Delete, arguments: &arguments, block: &case.block, ..Record::default() };
    let removed = edit::removed(&case.block, case.p, index).unwrap_or_default();
    let written = edit::delete(&case.block, case.p, index, 0).map(|(block, _)| block);
    edited(rng, tape, asked, written, &removed, 11);
}

fn insert_branch(rng: &mut Rng, tape: &mut Tape, case: &Case) {
    let items = &case.content.items;
    let original = match rng.below(5) {
        0 | 1 => None,
        2 => Some(content::key(rng)),
        _ => Some(rng.pick(items).key),
    };
    let key = match rng.below(3) {
        0 => original.clone().unwrap_or(content::key(rng)),
        _ => key(rng, &case.content),
    };
    if replaces_in_order(items, original.as_deref(), &key) {
        insert_child(rng, tape, case, original.as_deref(), &key, 14);
    }
}

fn insert_child(rng: &mut Rng, tape: &mut Tape, case: &Case, original: Option<&[u8]>, key: &[u8], refusal: u64) {
    let child = rng.between(2, 40_000);
    let arguments = [case.p, u64::from(original.is_some()), child];
    let asked = Record { call: Call::InsertBranch, arguments: &arguments, block: &case.block, ..Record::default() };
    let asked = Record { key, other: original.unwrap_or_default(), ..asked };
    edited(rng, tape, asked, edit::insert_branch(&case.block, case.p, original, key, child, 0), &[], refusal);
}

/// Edits of the wrong kind of node, where the crate panics.
fn wrong_kind(rng: &mut Rng, tape: &mut Tape, leaf: &Case, branch: &Case) {
    insert(rng, tape, branch);
    delete(rng, tape, branch);
    insert_child(rng, tape, leaf, None, b"k", 11);
}

fn new_blocks(rng: &mut Rng, tape: &mut Tape) {
    let (p, id) = (page_size(rng), rng.between(2, 40_000));
    let leaf = Content { leaf: true, items: Vec::new() };
    let arguments = [p, id];
    let asked = Record { call: Call::NewLeaf, arguments: &arguments, ..Record::default() };
    edited(rng, tape, asked, Some(write_content(&leaf, p, id, 0)), &[], 11);
    let (key, tag) = (content::key(rng), rng.between(2, 40_000));
    let branch = Content { leaf: false, items: vec![Item { tag, key: key.clone(), value: Vec::new() }] };
    let arguments = [p, id, tag];
    let asked = Record { call: Call::NewBranch, arguments: &arguments, key: &key, ..Record::default() };
    edited(rng, tape, asked, Some(write_content(&branch, p, id, 0)), &[], 11);
}

/// An edit with the block that the crate wrote and what it removed, or with its panic and 01's number for that.
fn edited(rng: &mut Rng, tape: &mut Tape, asked: Record, written: Option<Vec<u8>>, removed: &[u64], refusal: u64) {
    let number = if written.is_some() { 0 } else { refusal };
    let output = written.unwrap_or_default();
    let fields = [&[output.len() as u64], removed, &[0, 0, 0]].concat();
    let room = output.len() + rng.pick(&[0, 1, 7, 1_024]);
    tape.add(&Record { number, room, fields: &fields, output: &output, ..asked });
}
