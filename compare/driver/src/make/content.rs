//! Contents of nodes with rising keys.

use std::collections::BTreeSet;

use oracle::probe::{meta_page, Content, Item};

use crate::rng::Rng;

const LETTERS: [u8; 7] = [0x00, 0x01, b'a', b'b', 0x7F, 0x80, 0xFF];

/// A key: often short over few letters, so that prefixes and the byte order matter; at times empty or long.
pub fn key(rng: &mut Rng) -> Vec<u8> {
    let length = match rng.below(20) {
        0 => 0,
        1..=9 => rng.below(4),
        10..=18 => rng.below(40),
        _ => rng.below(400),
    };
    (0..length).map(|_| rng.pick(&LETTERS)).collect()
}

/// A leaf's value: mostly short, at times empty, about a page or of several pages.
pub fn value(rng: &mut Rng, p: u64) -> Vec<u8> {
    let length = match rng.below(20) {
        0..=3 => 0,
        4..=16 => rng.below(60),
        17..=18 => rng.below(p as usize),
        _ => rng.below(3 * p as usize),
    };
    rng.bytes(length)
}

/// An entry with this key.
pub fn item(rng: &mut Rng, leaf: bool, key: Vec<u8>, p: u64) -> Item {
    if !leaf {
        return Item { tag: rng.between(2, 40_000), key, value: Vec::new() };
    }
    if rng.one_in(6) {
        return Item { tag: 1, key, value: meta_page::bucket_value(rng.next(), rng.next()) };
    }
    Item { tag: 0, key, value: value(rng, p) }
}

/// So many entries with rising keys.
pub fn content(rng: &mut Rng, leaf: bool, count: usize, p: u64) -> Content {
    let mut keys = BTreeSet::new();
    while keys.len() < count {
        let mut key = key(rng);
        if count > 60 {
            key.extend(rng.bytes(3));
        }
        keys.insert(key);
    }
    let items = keys.into_iter().map(|key| item(rng, leaf, key, p)).collect();
    Content { leaf, items }
}

/// A count of entries, mostly few.
pub fn count(rng: &mut Rng) -> usize {
    match rng.below(10) {
        0..=6 => rng.below(12),
        7..=8 => rng.below(60),
        _ => rng.below(300),
    }
}

/// So many entries whose node has exactly this size, if that can be.
pub fn of_size(rng: &mut Rng, leaf: bool, count: usize, size: u64) -> Option<Content> {
    let element = if leaf { 32 } else { 24 };
    let payload = size.checked_sub(40 + count as u64 * element)? as usize;
    let prefix = if count > 200 { 2 } else { 1 };
    let mut spare = payload.checked_sub(prefix * count)?;
    let mut items = Vec::new();
    for i in 0..count {
        let index = (i as u64).to_be_bytes();
        let mut key = index[8 - prefix..].to_vec();
        let share = if i + 1 == count { spare } else { rng.below(1 + spare * 2 / (count - i)).min(spare) };
        spare -= share;
        let in_key = if leaf { rng.below(1 + share.min(20)) } else { share };
        key.extend(rng.bytes(in_key));
        let tag = if leaf { 0 } else { rng.between(2, 40_000) };
        items.push(Item { tag, key, value: rng.bytes(share - in_key) });
    }
    Some(Content { leaf, items })
}

/// The size of a node with this content.
pub fn size(content: &Content) -> u64 {
    let element = if content.leaf { 32 } else { 24 };
    let entries = content.items.iter().map(|item| element + item.key.len() + item.value.len());
    40 + entries.sum::<usize>() as u64
}

/// Keys to ask for: those given, their neighbours and some others.
pub fn questions(rng: &mut Rng, keys: &[Vec<u8>], others: usize) -> Vec<Vec<u8>> {
    let mut questions = keys.to_vec();
    for key in keys.iter().take(others) {
        questions.push([key.as_slice(), &[0]].concat());
        questions.push(key[..key.len().saturating_sub(1)].to_vec());
    }
    questions.extend((0..others).map(|_| self::key(rng)));
    questions.push(Vec::new());
    questions.push(vec![0xFF; 401]);
    questions
}
