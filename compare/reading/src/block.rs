//! "A sound page": rules 4 to 7, and the entries of a block that keeps them.

use crate::common::common_length;
use crate::layout::*;
use crate::{refusal, Fault};

/// A leaf entry (the tag is its kind) or a branch entry (the tag is its page, the value empty).
#[derive(Clone, Copy, Debug, PartialEq, Eq)]
pub struct Entry<'a> {
    pub tag: u64,
    pub key: &'a [u8],
    pub value: &'a [u8],
}

/// A block that keeps rules 5 to 7, and where in it each key starts.
pub struct Block<'a> {
    pub id: u64,
    pub leaf: bool,
    pub entries: Vec<Entry<'a>>,
    pub places: Vec<usize>,
}

/// A leaf entry's kind, and place and length of its key and value in the lent block.
#[derive(Clone, Copy, Debug, PartialEq, Eq)]
pub struct Held {
    pub kind: u64,
    pub key_place: u64,
    pub key_length: u64,
    pub value_place: u64,
    pub value_length: u64,
}

impl Block<'_> {
    /// The leaf entry at `index`, nothing past the end; 11 for a branch.
    pub fn held(&self, index: u64) -> Result<Option<Held>, Fault> {
        if !self.leaf {
            return Err(refusal(11));
        }
        if index >= self.entries.len() as u64 {
            return Ok(None);
        }
        let entry = self.entries[index as usize];
        let key_place = self.places[index as usize] as u64;
        let key_length = entry.key.len() as u64;
        let value_length = entry.value.len() as u64;
        Ok(Some(Held { kind: entry.tag, key_place, key_length, value_place: key_place + key_length, value_length }))
    }
}

/// The block of `page` in an image of `n` pages, by rules 4 to 7.
pub fn page_block(image: &[u8], p: u64, n: u64, page: u64, empty_allowed: bool) -> Result<Block<'_>, Fault> {
    let bytes = block_bytes(image, p, n, page, &[BRANCH, LEAF])?;
    read_block(bytes, empty_allowed).map_err(|fault| Fault { page, ..fault })
}

/// Rule 4: the bytes of a block with the right id, one of these types and an end within the image.
pub fn block_bytes<'a>(image: &'a [u8], p: u64, n: u64, page: u64, kinds: &[u8]) -> Result<&'a [u8], Fault> {
    let start = (page * p) as usize;
    let header = header(&image[start..]);
    let last = u128::from(page) + u128::from(header.overflow);
    if header.id != page || !kinds.contains(&header.kind) || last >= u128::from(n) {
        return Err(Fault { number: 3, page, element: 0, common: 0 });
    }
    Ok(&image[start..start + ((header.overflow + 1) * p) as usize])
}

/// A single lent block: its length, its type and overflow, then rules 5 to 7.
pub fn lent_block(bytes: &[u8], p: u64) -> Result<Block<'_>, Fault> {
    check_page_size(p)?;
    if bytes.is_empty() || !(bytes.len() as u64).is_multiple_of(p) {
        return Err(refusal(1));
    }
    let header = header(bytes);
    let length = (u128::from(header.overflow) + 1) * u128::from(p);
    if ![BRANCH, LEAF].contains(&header.kind) || length != bytes.len() as u128 {
        return Err(refusal(3));
    }
    read_block(bytes, true)
}

/// Rule 5: where the element table ends.
pub fn table_end(bytes: &[u8], empty_allowed: bool) -> Result<u128, Fault> {
    let header = header(bytes);
    let leaf = header.kind == LEAF;
    let table_end = TABLE_START as u128 + u128::from(header.count) * element_size(leaf) as u128;
    let empty_refused = header.count == 0 && !(leaf && empty_allowed);
    if empty_refused || table_end > bytes.len() as u128 {
        return Err(refusal(4));
    }
    Ok(table_end)
}

/// Rules 5 to 7 over a whole block.
fn read_block(bytes: &[u8], empty_allowed: bool) -> Result<Block<'_>, Fault> {
    let table_end = table_end(bytes, empty_allowed)?;
    let header = header(bytes);
    let leaf = header.kind == LEAF;
    let mut block = Block { id: header.id, leaf, entries: Vec::new(), places: Vec::new() };
    for element in 0..header.count as usize {
        let (entry, place) = read_element(bytes, leaf, element, table_end).ok_or(element_fault(5, element))?;
        block.entries.push(entry);
        block.places.push(place);
    }
    for element in 1..block.entries.len() {
        let (before, key) = (block.entries[element - 1].key, block.entries[element].key);
        if key <= before {
            return Err(Fault { common: common_length(key, before), ..element_fault(6, element) });
        }
    }
    Ok(block)
}

/// Rule 6 for one element: its entry and where the key starts, or nothing on a breach.
pub fn read_element(bytes: &[u8], leaf: bool, element: usize, table_end: u128) -> Option<(Entry<'_>, usize)> {
    let at = TABLE_START + element * element_size(leaf);
    let (tag, pos, key_size, value_size) = if leaf {
        (u64::from(bytes[at]), u64_at(bytes, at + 8), u64_at(bytes, at + 16), u64_at(bytes, at + 24))
    } else {
        (u64_at(bytes, at), u64_at(bytes, at + 16), u64_at(bytes, at + 8), 0)
    };
    let key_start = at as u128 + u128::from(pos);
    let value_start = key_start + u128::from(key_size);
    let end = value_start + u128::from(value_size);
    if key_start < table_end || end > bytes.len() as u128 {
        return None;
    }
    if leaf && (tag > 1 || tag == 1 && value_size != BUCKET_VALUE_SIZE as u64) {
        return None;
    }
    let (key_start, value_start, end) = (key_start as usize, value_start as usize, end as usize);
    Some((Entry { tag, key: &bytes[key_start..value_start], value: &bytes[value_start..end] }, key_start))
}

/// A refusal that names an element of a single block.
fn element_fault(number: u64, element: usize) -> Fault {
    Fault { number, page: 0, element: element as u64, common: 0 }
}
