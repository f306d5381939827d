//! The pages that a tree names, in the judge's order, and those on the way to a key: read again in Rust, not proved.
//!
//! On a tree that the judge passed these are the pages that it reached; on another, those up to its first breach are.
//! Each branch is read once, to 16 levels, so that no bytes make a walk endless.

use std::collections::BTreeSet;
use std::ops::ControlFlow;

use crate::layout::{Block, Pages, BRANCH};

/// The levels of a tree, the root being the first.
pub const LEVELS: usize = 16;
/// More pages than a tree can name before the judge meets one for the second time.
const MOST_NAMED: usize = 65_536;

/// A page on the way down, and the element of it that names the next.
#[derive(Clone, Copy, Debug, PartialEq, Eq)]
pub struct Step {
    pub page: u64,
    pub element: u64,
}

/// Told of each page that a tree names, with the steps that lead to it; answers whether to go on.
pub type See<'s> = dyn FnMut(u64, &[Step]) -> ControlFlow<()> + 's;

struct Walk<'a, 's> {
    pages: Pages<'a>,
    read: BTreeSet<u64>,
    steps: Vec<Step>,
    named: usize,
    see: &'s mut See<'s>,
}

/// Tells `see` of each page named under a root, the root first.
pub fn all<'s>(pages: Pages, root: u64, see: &'s mut See<'s>) -> ControlFlow<()> {
    Walk { pages, read: BTreeSet::new(), steps: Vec::new(), named: 0, see }.reach(root)
}

impl Walk<'_, '_> {
    /// Tells of a page, and of all below it in order.
    fn reach(&mut self, page: u64) -> ControlFlow<()> {
        (self.see)(page, &self.steps)?;
        self.named += 1;
        if self.named > MOST_NAMED {
            return ControlFlow::Break(());
        }
        if self.steps.len() == LEVELS || !self.read.insert(page) {
            return ControlFlow::Continue(());
        }
        let Some(block) = self.pages.block(page).filter(|block| block.header.kind == BRANCH) else {
            return ControlFlow::Continue(());
        };
        for element in 0..block.count() {
            self.steps.push(Step { page, element });
            let seen = block.number(element).map_or(ControlFlow::Continue(()), |child| self.reach(child));
            self.steps.pop();
            seen?;
        }
        ControlFlow::Continue(())
    }
}

/// Tells `see` of each page on the way from a root to a key.
pub fn to_key(pages: Pages, root: u64, key: &[u8], see: &mut See) -> ControlFlow<()> {
    let mut steps = Vec::new();
    let mut page = root;
    loop {
        see(page, &steps)?;
        let block = pages.block(page).filter(|block| block.header.kind == BRANCH && steps.len() < LEVELS);
        let Some((element, child)) = block.and_then(|block| child_for(&block, key)) else {
            return ControlFlow::Continue(());
        };
        steps.push(Step { page, element });
        page = child;
    }
}

/// The element of a branch that leads to a key, and the page that it names.
fn child_for(block: &Block, key: &[u8]) -> Option<(u64, u64)> {
    let above = (0..block.count()).find(|i| block.key(*i).map_or(true, |separator| separator > key));
    let element = above.unwrap_or(block.count()).saturating_sub(1);
    Some((element, block.number(element)?))
}
