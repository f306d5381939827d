//! "Lookup": the descent from a root, judging each whole page it meets.

use crate::block::page_block;
use crate::layout::{check_image, MAX_LEVEL};
use crate::Fault;

/// A leaf entry found: its kind, and its value's offset in the image and length.
#[derive(Clone, Copy, Debug, PartialEq, Eq)]
pub struct Found {
    pub kind: u64,
    pub place: u64,
    pub length: u64,
}

/// The entry with this key under `root`, nothing when absent.
pub fn lookup(image: &[u8], p: u64, n: u64, root: u64, key: &[u8]) -> Result<Option<Found>, Fault> {
    check_image(image, p, n)?;
    let mut page = root;
    let mut level = 1;
    loop {
        check_reached(page, level, n)?;
        let block = page_block(image, p, n, page, level == 1)?;
        let (i, found) = block.index(key);
        if block.leaf && !found {
            return Ok(None);
        }
        let entry = block.entries[i];
        if block.leaf {
            let place = page * p + (block.places[i] + entry.key.len()) as u64;
            return Ok(Some(Found { kind: entry.tag, place, length: entry.value.len() as u64 }));
        }
        page = entry.tag;
        level += 1;
    }
}

/// Rules 1 and 2: the level, then the page number.
pub fn check_reached(page: u64, level: u64, n: u64) -> Result<(), Fault> {
    if level > MAX_LEVEL {
        return Err(Fault { number: 9, page, element: 0, common: 0 });
    }
    if page < 2 || page >= n {
        return Err(Fault { number: 2, page, element: 0, common: 0 });
    }
    Ok(())
}
