//! The range that the branches above give a page, and the separators that are its ends: read again in Rust, not proved.

use crate::layout::Pages;
use crate::walk::Step;

/// An end of a range: a separator, where in the file it starts, and the element that holds it.
pub struct End {
    pub key: Vec<u8>,
    pub at: u64,
    pub step: Step,
}

/// From the lower end up to, not including, the upper one.
pub struct Range {
    pub low: Option<End>,
    pub high: Option<End>,
    /// Whether the key is below the lower end; else it is not below the upper one.
    pub below: bool,
}

impl Range {
    /// The range of the page that these steps lead to, where its ends can be read and a key is outside of it.
    pub fn around(pages: Pages, steps: &[Step], key: &[u8]) -> Option<Range> {
        let end = |page, element| {
            let part = pages.block(page)?.key_part(element)?;
            Some(End { key: part.bytes.to_vec(), at: part.at, step: Step { page, element } })
        };
        let has_next = |step: &&Step| pages.block(step.page).is_some_and(|block| step.element + 1 < block.count());
        let low = match steps.last() {
            Some(step) => Some(end(step.page, step.element)?),
            None => None,
        };
        let high = match steps.iter().rev().find(has_next) {
            Some(step) => Some(end(step.page, step.element + 1)?),
            None => None,
        };
        let below = low.as_ref().is_some_and(|low| key < low.key.as_slice());
        let past = high.as_ref().is_some_and(|high| key >= high.key.as_slice());
        (below || past).then_some(Range { low, high, below })
    }

    /// The end that the key is outside of, and what it is called.
    pub fn crossed(&self) -> Option<(&'static str, &End)> {
        match self.below {
            true => Some(("the lower end", self.low.as_ref()?)),
            false => Some(("the upper end", self.high.as_ref()?)),
        }
    }
}
