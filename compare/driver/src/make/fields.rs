//! Bytes of pages put down field by field.

use oracle::probe::Item;

pub fn put(bytes: &mut [u8], at: usize, number: u64) {
    bytes[at..at + 8].copy_from_slice(&number.to_le_bytes());
}

pub fn get(bytes: &[u8], at: usize) -> u64 {
    u64::from_le_bytes(bytes[at..at + 8].try_into().unwrap())
}

/// A page header over the beginning of these bytes.
pub fn put_header(bytes: &mut [u8], id: u64, kind: u8, count: u64, overflow: u64) {
    put(bytes, 0, id);
    bytes[8] = kind;
    put(bytes, 16, count);
    put(bytes, 24, overflow);
}

/// Element `i` for an entry whose key starts at `start` of the block.
pub fn put_element(bytes: &mut [u8], leaf: bool, i: usize, item: &Item, start: usize) {
    if leaf {
        let at = 32 + 32 * i;
        bytes[at] = item.tag as u8;
        put(bytes, at + 8, (start - at) as u64);
        put(bytes, at + 16, item.key.len() as u64);
        put(bytes, at + 24, item.value.len() as u64);
    } else {
        let at = 32 + 24 * i;
        put(bytes, at, item.tag);
        put(bytes, at + 8, item.key.len() as u64);
        put(bytes, at + 16, (start - at) as u64);
    }
}

/// A freelist block of so many pages.
pub fn freelist_block(p: u64, id: u64, pages: u64, ids: &[u64]) -> Vec<u8> {
    let mut block = vec![0; (p * pages) as usize];
    put_header(&mut block, id, 4, ids.len() as u64, pages - 1);
    for (i, id) in ids.iter().enumerate() {
        put(&mut block, 32 + 8 * i, *id);
    }
    block
}

/// The node size of a packed block.
pub fn node_size(block: &[u8]) -> u64 {
    let (leaf, count) = (block[8] == 2, get(block, 16) as usize);
    let data = (0..count).map(|i| match leaf {
        true => 32 + get(block, 48 + 32 * i) + get(block, 56 + 32 * i),
        false => 24 + get(block, 40 + 24 * i),
    });
    40 + data.sum::<u64>()
}

/// The packed block with what the crate leaves unset made zero: padding, and what follows the content.
pub fn unset_cleared(block: &[u8]) -> Vec<u8> {
    let mut cleared = block.to_vec();
    cleared[9..16].fill(0);
    if block[8] == 2 {
        for i in 0..get(block, 16) as usize {
            let at = 32 + 32 * i;
            cleared[at + 1..at + 8].fill(0);
        }
    }
    cleared[node_size(block) as usize - 8..].fill(0);
    cleared
}

/// The keys of a block, in its order.
pub fn keys(block: &[u8]) -> Vec<Vec<u8>> {
    let place = |i: usize| match block[8] {
        2 => (32 + 32 * i, get(block, 40 + 32 * i), get(block, 48 + 32 * i)),
        _ => (32 + 24 * i, get(block, 48 + 24 * i), get(block, 40 + 24 * i)),
    };
    let key = |(at, pos, length): (usize, u64, u64)| block[at + pos as usize..][..length as usize].to_vec();
    (0..get(block, 16) as usize).map(|i| key(place(i))).collect()
}
