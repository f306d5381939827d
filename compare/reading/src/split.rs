//! "Split": the cuts of a node, and its pieces written each into its own stretch.

use crate::block::{lent_block, Block};
use crate::layout::*;
use crate::pack::{entry_size, node_size, pack, pages_needed, Node};
use crate::{refusal, Fault};

/// Where a block is cut: the index of the first entry of each piece after the first.
fn cuts_of(block: &Block, p: u64) -> Vec<usize> {
    let entries = &block.entries;
    let mut cuts = Vec::new();
    if entries.len() <= 4 || node_size(block.leaf, entries) < u128::from(p) {
        return cuts;
    }
    let threshold = u128::from(p / 2);
    let mut sum = HEADER_SIZE;
    let mut count = 0;
    for (i, entry) in entries[..entries.len() - 2].iter().enumerate() {
        let size = entry_size(block.leaf, entry);
        sum += size;
        count += 1;
        if count >= 2 && sum > threshold {
            cuts.push(i + 1);
            sum = HEADER_SIZE + size;
            count = 0;
        }
    }
    cuts
}

/// Writes the cuts over the beginning of `list` and answers how many there are.
pub fn split(block: &[u8], p: u64, list: &mut [u64]) -> Result<u64, Fault> {
    let block = lent_block(block, p)?;
    let cuts = cuts_of(&block, p);
    if node_size(block.leaf, &block.entries) > MAX_NODE_SIZE {
        return Err(refusal(15));
    }
    let room = list.get_mut(..cuts.len()).ok_or(refusal(10))?;
    for (place, cut) in room.iter_mut().zip(&cuts) {
        *place = *cut as u64;
    }
    Ok(cuts.len() as u64)
}

/// Writes the pieces one after the other with these page numbers; answers bytes written and pieces.
pub fn split_write(block: &[u8], p: u64, n: u64, ids: &[u64], out: &mut [u8]) -> Result<(u64, u64), Fault> {
    check_page_size(p)?;
    check_page_count(n)?;
    let block = lent_block(block, p)?;
    let pieces = pieces_of(&block, p, ids)?;
    check_blocks(&pieces, p, n)?;
    if node_size(block.leaf, &block.entries) > MAX_NODE_SIZE {
        return Err(refusal(15));
    }
    let bytes: Vec<u8> = pieces.iter().flat_map(|piece| pack(piece, p)).collect();
    let room = out.get_mut(..bytes.len()).ok_or(refusal(10))?;
    room.copy_from_slice(&bytes);
    Ok((bytes.len() as u64, pieces.len() as u64))
}

/// The pieces between the cuts, each with its page number.
fn pieces_of<'a>(block: &Block<'a>, p: u64, ids: &[u64]) -> Result<Vec<Node<'a>>, Fault> {
    let mut ends = cuts_of(block, p);
    ends.push(block.entries.len());
    if ids.len() != ends.len() {
        return Err(refusal(11));
    }
    let mut start = 0;
    let mut pieces = Vec::new();
    for (id, end) in ids.iter().zip(ends) {
        pieces.push(Node { id: *id, leaf: block.leaf, entries: block.entries[start..end].to_vec() });
        start = end;
    }
    Ok(pieces)
}

/// Each piece's block from page 2 on and inside N, and no two overlapping.
fn check_blocks(pieces: &[Node], p: u64, n: u64) -> Result<(), Fault> {
    let mut blocks: Vec<(u128, u128)> = pieces
        .iter()
        .map(|piece| {
            let first = u128::from(piece.id);
            (first, first + pages_needed(node_size(piece.leaf, &piece.entries), p))
        })
        .collect();
    blocks.sort_unstable();
    let inside = blocks.iter().all(|(first, end)| *first >= 2 && *end <= u128::from(n));
    let apart = blocks.windows(2).all(|pair| pair[0].1 <= pair[1].0);
    (inside && apart).then_some(()).ok_or(refusal(11))
}
