//! Node size and the packed writer: all elements, then key and value of each in order, then zeros.

use crate::block::Entry;
use crate::layout::*;
use crate::{refusal, Fault};

/// A node to be written: the id, kind and entries of its block.
pub struct Node<'a> {
    pub id: u64,
    pub leaf: bool,
    pub entries: Vec<Entry<'a>>,
}

/// The bytes an entry adds to a node: element, key and value.
pub fn entry_size(leaf: bool, entry: &Entry) -> u128 {
    element_size(leaf) as u128 + entry.key.len() as u128 + entry.value.len() as u128
}

/// 40 and the size of each entry.
pub fn node_size(leaf: bool, entries: &[Entry]) -> u128 {
    HEADER_SIZE + entries.iter().map(|entry| entry_size(leaf, entry)).sum::<u128>()
}

/// Node size over P, rounded up.
pub fn pages_needed(size: u128, p: u64) -> u128 {
    size.div_ceil(u128::from(p))
}

/// The packed block of a node.
pub fn pack(node: &Node, p: u64) -> Vec<u8> {
    let pages = pages_needed(node_size(node.leaf, &node.entries), p) as u64;
    let mut block = vec![0; (pages * p) as usize];
    put_u64(&mut block, 0, node.id);
    block[8] = if node.leaf { LEAF } else { BRANCH };
    put_u64(&mut block, 16, node.entries.len() as u64);
    put_u64(&mut block, 24, pages - 1);
    let size = element_size(node.leaf);
    let mut data = TABLE_START + node.entries.len() * size;
    for (i, entry) in node.entries.iter().enumerate() {
        let at = TABLE_START + i * size;
        put_element(&mut block[at..at + size], node.leaf, entry, (data - at) as u64);
        for part in [entry.key, entry.value] {
            block[data..data + part.len()].copy_from_slice(part);
            data += part.len();
        }
    }
    block
}

/// Writes one element over zeros.
fn put_element(element: &mut [u8], leaf: bool, entry: &Entry, pos: u64) {
    if leaf {
        element[0] = entry.tag as u8;
        put_u64(element, 8, pos);
        put_u64(element, 16, entry.key.len() as u64);
        put_u64(element, 24, entry.value.len() as u64);
    } else {
        put_u64(element, 0, entry.tag);
        put_u64(element, 8, entry.key.len() as u64);
        put_u64(element, 16, pos);
    }
}

/// Writes a result over the beginning of `out`, size and room permitting, and answers the bytes written.
pub fn write_result(node: &Node, p: u64, out: &mut [u8]) -> Result<u64, Fault> {
    if node_size(node.leaf, &node.entries) > MAX_NODE_SIZE {
        return Err(refusal(15));
    }
    let block = pack(node, p);
    let room = out.get_mut(..block.len()).ok_or(refusal(10))?;
    room.copy_from_slice(&block);
    Ok(block.len() as u64)
}
