//! "Search": `index`, `index_page` and `val` (page_node.rs).

use crate::block::{lent_block, Block, Held};
use crate::{refusal, Fault};

impl Block<'_> {
    /// The key's index and true; or the place before its insertion place, never below 0, and false.
    pub fn index(&self, key: &[u8]) -> (usize, bool) {
        match self.entries.iter().position(|entry| entry.key == key) {
            Some(i) => (i, true),
            None => {
                let lower = self.entries.iter().filter(|entry| entry.key < key).count();
                (lower.saturating_sub(1), false)
            }
        }
    }
}

/// `index` on a single lent block.
pub fn index(block: &[u8], p: u64, key: &[u8]) -> Result<(usize, bool), Fault> {
    Ok(lent_block(block, p)?.index(key))
}

/// The page number at `index` of a branch; past the end of either kind it is 0.
pub fn index_page(block: &[u8], p: u64, index: u64) -> Result<u64, Fault> {
    let block = lent_block(block, p)?;
    if index >= block.entries.len() as u64 {
        return Ok(0);
    }
    if block.leaf {
        return Err(refusal(11));
    }
    Ok(block.entries[index as usize].tag)
}

/// The leaf entry at `index` of a single lent block (the crate's `val`), or nothing past the end.
pub fn entry(block: &[u8], p: u64, index: u64) -> Result<Option<Held>, Fault> {
    lent_block(block, p)?.held(index)
}
