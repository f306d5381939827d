//! Sound blocks that the packed writer would not make: gaps, another order of the data, shared bytes.

use oracle::probe::{Content, Item};

use super::content;
use super::fields::{put_element, put_header};
use crate::rng::Rng;

/// A block of so many pages, enough for the content, with the data in any order, gaps between, and at times up to the end.
pub fn spread(rng: &mut Rng, content: &Content, p: u64, id: u64, pages: u64) -> Vec<u8> {
    let mut block = rng.bytes((p * pages) as usize);
    let kind = if content.leaf { 2 } else { 1 };
    put_header(&mut block, id, kind, content.items.len() as u64, pages - 1);
    let mut order: Vec<usize> = (0..content.items.len()).collect();
    rng.shuffle(&mut order);
    let end = content::size(content) as usize - 8;
    let mut spare = block.len() - end;
    let mut start = 32 + content.items.len() * if content.leaf { 32 } else { 24 };
    let (last, flush) = (order.last().copied(), rng.one_in(2));
    for i in order {
        let gap = if flush && Some(i) == last { spare } else { rng.below(1 + spare.min(20)) };
        spare -= gap;
        start += gap;
        let item = &content.items[i];
        put_element(&mut block, content.leaf, i, item, start);
        for part in [&item.key, &item.value] {
            block[start..start + part.len()].copy_from_slice(part);
            start += part.len();
        }
    }
    block
}

/// A block whose entries are windows on one stretch of bytes, so that they overlap.
pub fn windows(rng: &mut Rng, leaf: bool, p: u64, id: u64) -> (Vec<u8>, Content) {
    let pages = rng.between(1, 3);
    let length = (p * pages) as usize;
    let wanted = content::count(rng).clamp(1, 24);
    let table = 32 + 32 * wanted;
    let mut block: Vec<u8> = (0..length).map(|_| rng.pick(&[0, b'a', 0xFF])).collect();
    let mut found: Vec<(Item, usize)> = (0..wanted).map(|_| window(rng, leaf, &block, table)).collect();
    found.sort_by(|a, b| a.0.key.cmp(&b.0.key));
    found.dedup_by(|a, b| a.0.key == b.0.key);
    put_header(&mut block, id, if leaf { 2 } else { 1 }, found.len() as u64, pages - 1);
    for (i, (item, start)) in found.iter().enumerate() {
        put_element(&mut block, leaf, i, item, *start);
    }
    (block, Content { leaf, items: found.into_iter().map(|(item, _)| item).collect() })
}

/// An entry read from anywhere after the table.
fn window(rng: &mut Rng, leaf: bool, block: &[u8], table: usize) -> (Item, usize) {
    let start = table + rng.below(block.len() - table + 1);
    let key_length = rng.below((block.len() - start).min(30) + 1);
    let middle = start + key_length;
    let bucket = leaf && middle + 16 <= block.len() && rng.one_in(4);
    let value_length = match (leaf, bucket) {
        (false, _) => 0,
        (true, true) => 16,
        (true, false) if rng.one_in(3) => block.len() - middle,
        (true, false) => rng.below(block.len() - middle + 1),
    };
    let tag = if leaf { u64::from(bucket) } else { rng.between(2, 40_000) };
    let value = block[middle..middle + value_length].to_vec();
    (Item { tag, key: block[start..middle].to_vec(), value }, start)
}
