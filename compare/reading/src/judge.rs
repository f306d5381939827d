//! "A sound image": the judge's walk over a tree, then the freelist page. Rule 3 as 02's order 3 has it: directly after
//! rule 4, over every page of the block.

use crate::block::{block_bytes, page_block, Block};
use crate::common::common_length;
use crate::layout::*;
use crate::lookup::check_reached;
use crate::Fault;

/// What a passing image answers: leaf entries, and pages reached with those of the freelist block.
#[derive(Clone, Copy, Debug, PartialEq, Eq)]
pub struct Sound {
    pub entries: u64,
    pub pages: u64,
}

/// The keys a page may hold: from `low` up to, not including, `high` where there is one.
#[derive(Clone, Copy)]
struct Range<'a> {
    low: &'a [u8],
    high: Option<&'a [u8]>,
}

struct Walk<'a> {
    image: &'a [u8],
    p: u64,
    n: u64,
    marks: Vec<bool>,
    entries: u64,
}

/// Judges the tree under `root`, then the freelist page.
pub fn judge(image: &[u8], p: u64, n: u64, root: u64, freelist: u64) -> Result<Sound, Fault> {
    check_image(image, p, n)?;
    let mut walk = Walk { image, p, n, marks: vec![false; MAX_PAGES as usize], entries: 0 };
    walk.subtree(root, 1, Range { low: &[], high: None })?;
    walk.freelist(freelist)?;
    let pages = walk.marks.iter().filter(|mark| **mark).count() as u64;
    Ok(Sound { entries: walk.entries, pages })
}

impl<'a> Walk<'a> {
    /// Rules 1, 2, 4, 3 and 5 to 8 for this page, then its children in order.
    fn subtree(&mut self, page: u64, level: u64, range: Range<'a>) -> Result<(), Fault> {
        check_reached(page, level, self.n)?;
        self.mark_block(page, &[BRANCH, LEAF])?;
        let block = page_block(self.image, self.p, self.n, page, level == 1)?;
        check_range(&block, page, range)?;
        if block.leaf {
            self.entries += block.entries.len() as u64;
            return Ok(());
        }
        for (i, entry) in block.entries.iter().enumerate() {
            let high = block.entries.get(i + 1).map(|next| next.key).or(range.high);
            self.subtree(entry.tag, level + 1, Range { low: entry.key, high })?;
        }
        Ok(())
    }

    /// Rule 4 with these types, then rule 3: every page of the block is used once. The block's bytes.
    fn mark_block(&mut self, page: u64, kinds: &[u8]) -> Result<&'a [u8], Fault> {
        let bytes = block_bytes(self.image, self.p, self.n, page, kinds)?;
        let end = page + bytes.len() as u64 / self.p;
        let marks = &mut self.marks[page as usize..end as usize];
        if let Some(i) = marks.iter().position(|mark| *mark) {
            return Err(Fault { number: 8, page: page + i as u64, element: 0, common: 0 });
        }
        marks.fill(true);
        Ok(bytes)
    }

    /// Rules 2, 4, 3 and 5 for the freelist page, then its ids, each rule over all of them before the next.
    fn freelist(&mut self, page: u64) -> Result<(), Fault> {
        check_reached(page, 1, self.n)?;
        let bytes = self.mark_block(page, &[FREELIST])?;
        let count = header(bytes).count;
        if TABLE_START as u128 + u128::from(count) * 8 > bytes.len() as u128 {
            return Err(Fault { number: 4, page, element: 0, common: 0 });
        }
        let ids: Vec<u64> = (0..count as usize).map(|i| u64_at(bytes, TABLE_START + 8 * i)).collect();
        let named = |number, breach: Option<usize>| match breach {
            Some(i) => Err(Fault { number, page, element: i as u64, common: 0 }),
            None => Ok(()),
        };
        named(5, ids.iter().position(|id| *id < 2 || *id >= self.n))?;
        named(6, (1..ids.len()).find(|i| ids[*i] <= ids[*i - 1]))?;
        named(8, ids.iter().position(|id| self.marks[*id as usize]))
    }
}

/// Rule 8: every key inside the range; a breach tells how far the key goes with the end it crossed.
fn check_range(block: &Block, page: u64, range: Range) -> Result<(), Fault> {
    for (i, entry) in block.entries.iter().enumerate() {
        if let Some(end) = crossed(entry.key, range) {
            return Err(Fault { number: 7, page, element: i as u64, common: common_length(entry.key, end) });
        }
    }
    Ok(())
}

/// The end of the range that this key crosses, the lower end first, or nothing.
fn crossed<'a>(key: &[u8], range: Range<'a>) -> Option<&'a [u8]> {
    if key < range.low {
        return Some(range.low);
    }
    range.high.filter(|high| key >= *high)
}
