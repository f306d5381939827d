//! Edits of one node: read from a block, changed by the crate, written by the crate with the same id.

use super::aligned::Aligned;
use super::build::{branch, leaf, node_of_block, node_size, write_block, Item};
use super::caught;
use super::search::{item, value_place};
use crate::bytes::Bytes;
use crate::node::Node;

/// The node's size.
pub fn size(block: &[u8], pagesize: u64) -> u64 {
    let block = Aligned::copy(block);
    node_size(&mut node_of_block(&block, pagesize), pagesize)
}

pub fn needs_merging(block: &[u8], pagesize: u64) -> bool {
    let block = Aligned::copy(block);
    node_of_block(&block, pagesize).needs_merging()
}

/// `insert_data`, nothing where it panics.
pub fn insert(block: &[u8], pagesize: u64, entry: &Item, fill: u8) -> Option<Vec<u8>> {
    edited(block, pagesize, fill, |node| node.insert_data(leaf(entry))).map(|(written, ())| written)
}

/// `delete`: the block without the entry, and the entry.
pub fn delete(block: &[u8], pagesize: u64, index: usize, fill: u8) -> Option<(Vec<u8>, Item)> {
    edited(block, pagesize, fill, |node| item(&node.delete(index)))
}

/// What `delete` takes out of the block: kind, place and length of the key, place and length of the value.
pub fn removed(block: &[u8], pagesize: u64, index: usize) -> Option<[u64; 5]> {
    let block = Aligned::copy(block);
    let leaf = caught(|| node_of_block(&block, pagesize).delete(index))?;
    let (key_length, value_length) = (leaf.key().len() as u64, leaf.value().len() as u64);
    let key_place = leaf.key().as_ptr() as usize - block.bytes().as_ptr() as usize;
    let value_place = value_place(&leaf, block.bytes().as_ptr());
    Some([u64::from(leaf.node_type()), key_place as u64, key_length, value_place, value_length])
}

/// `insert_branch`, nothing where it panics.
pub fn insert_branch<'a>(
    block: &[u8],
    pagesize: u64,
    original: Option<&'a [u8]>,
    key: &'a [u8],
    page: u64,
    fill: u8,
) -> Option<Vec<u8>> {
    let original = original.map(Bytes::Slice);
    let change = |node: &mut Node<'a>| node.insert_branch(&original, branch(key, page, pagesize));
    edited(block, pagesize, fill, change).map(|(written, ())| written)
}

/// The block after this change to its node, and what the change answers.
fn edited<'a, T>(
    block: &[u8],
    pagesize: u64,
    fill: u8,
    change: impl FnOnce(&mut Node<'a>) -> T,
) -> Option<(Vec<u8>, T)> {
    let block = Aligned::copy(block);
    let id = block.page().id;
    let mut node = Node::from_page(0, block.page(), pagesize);
    let answer = caught(|| change(&mut node))?;
    Some((write_block(&mut node, pagesize, id, fill), answer))
}
