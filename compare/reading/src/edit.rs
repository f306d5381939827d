//! "Node edits": each reads one lent block and writes another (node.rs).

use crate::block::{lent_block, Block, Entry, Held};
use crate::layout::{check_page_size, BUCKET_VALUE_SIZE, MAX_NODE_SIZE};
use crate::pack::{node_size, write_result, Node};
use crate::{refusal, Fault};

/// The node size of a lent block.
pub fn size(block: &[u8], p: u64) -> Result<u64, Fault> {
    let block = lent_block(block, p)?;
    let size = node_size(block.leaf, &block.entries);
    if size > MAX_NODE_SIZE {
        return Err(refusal(15));
    }
    Ok(size as u64)
}

/// Whether there are fewer than 2 entries or the size is below P/4.
pub fn needs_merging(block: &[u8], p: u64) -> Result<bool, Fault> {
    let block = lent_block(block, p)?;
    Ok(block.entries.len() < 2 || node_size(block.leaf, &block.entries) < u128::from(p / 4))
}

/// Writes an empty leaf.
pub fn new_leaf(p: u64, id: u64, out: &mut [u8]) -> Result<u64, Fault> {
    check_page_size(p)?;
    write_result(&Node { id, leaf: true, entries: Vec::new() }, p, out)
}

/// Writes a branch of one entry.
pub fn new_branch(p: u64, id: u64, key: &[u8], page: u64, out: &mut [u8]) -> Result<u64, Fault> {
    check_page_size(p)?;
    if page < 2 {
        return Err(refusal(11));
    }
    let entries = vec![Entry { tag: page, key, value: &[] }];
    write_result(&Node { id, leaf: false, entries }, p, out)
}

/// Replaces the leaf entry with an equal key, else inserts in order.
pub fn insert(block: &[u8], p: u64, key: &[u8], kind: u64, value: &[u8], out: &mut [u8]) -> Result<u64, Fault> {
    let block = lent_block(block, p)?;
    if !block.leaf || kind > 1 || kind == 1 && value.len() != BUCKET_VALUE_SIZE {
        return Err(refusal(11));
    }
    write_result(&with_entry(block, Entry { tag: kind, key, value }), p, out)
}

/// Takes out the leaf entry at `index`, and tells where it lies.
pub fn delete(block: &[u8], p: u64, index: u64, out: &mut [u8]) -> Result<(u64, Held), Fault> {
    let mut block = lent_block(block, p)?;
    let removed = block.held(index)?.ok_or(refusal(11))?;
    block.entries.remove(index as usize);
    let written = write_result(&Node { id: block.id, leaf: true, entries: block.entries }, p, out)?;
    Ok((written, removed))
}

/// Replaces the branch entry of the original key, or with none inserts a new one in order.
pub fn insert_branch(
    block: &[u8],
    p: u64,
    original: Option<&[u8]>,
    key: &[u8],
    page: u64,
    out: &mut [u8],
) -> Result<u64, Fault> {
    let block = lent_block(block, p)?;
    if block.leaf || page < 2 {
        return Err(refusal(11));
    }
    let (at, present) = block.index(original.unwrap_or(key));
    if present != original.is_some() {
        return Err(refusal(14));
    }
    let entry = Entry { tag: page, key, value: &[] };
    let Some(_) = original else {
        return write_result(&with_entry(block, entry), p, out);
    };
    let mut entries = block.entries;
    entries[at] = entry;
    if entries.windows(2).any(|pair| pair[0].key >= pair[1].key) {
        return Err(refusal(14));
    }
    write_result(&Node { id: block.id, leaf: false, entries }, p, out)
}

/// The node with `entry` in place of the one with its key, or in order.
fn with_entry<'a>(block: Block<'a>, entry: Entry<'a>) -> Node<'a> {
    let lower = block.entries.iter().filter(|other| other.key < entry.key).copied();
    let higher = block.entries.iter().filter(|other| other.key > entry.key).copied();
    let entries = lower.chain([entry]).chain(higher).collect();
    Node { id: block.id, leaf: block.leaf, entries }
}
