//! A page that is used twice: the blocks that it is part of, the free id that names it. Read again in Rust, not proved.

use std::fmt;

use tyvarmos::Fault;

use crate::layout::Pages;
use crate::trace::Trace;

/// A page that is part of a block, and of another one too or listed as free.
pub struct Twice {
    pub page: u64,
    /// The block that had it first.
    pub first: Extent,
    pub again: Again,
}

/// What has a page for the second time: a block, or the free id with this index.
pub enum Again {
    Block(Extent),
    FreeId(u64),
}

/// The pages of a block, and what its type is called.
#[derive(Clone, Copy, Debug, PartialEq, Eq)]
pub struct Extent {
    pub first: u64,
    pub last: u64,
    pub type_name: &'static str,
}

impl Twice {
    /// The page that a fault is about, where the way to the fault has the blocks.
    pub fn of(pages: Pages, fault: &Fault, trace: &Trace) -> Option<Twice> {
        let (page, first) = trace.first.as_ref()?;
        let again = match fault.element {
            Some(i) => Again::FreeId(i),
            None => Again::Block(Extent::of(pages, trace.fault.as_ref()?.page)?),
        };
        Some(Twice { page: *page, first: Extent::of(pages, first.page)?, again })
    }

    /// The blocks that the page is part of, in the order in which they had it.
    pub fn blocks(&self) -> impl Iterator<Item = Extent> {
        let again = match self.again {
            Again::Block(extent) => Some(extent),
            Again::FreeId(_) => None,
        };
        [self.first].into_iter().chain(again)
    }
}

impl fmt::Display for Twice {
    fn fmt(&self, f: &mut fmt::Formatter) -> fmt::Result {
        let Twice { page, first, again } = self;
        match again {
            Again::FreeId(i) => write!(f, "free id {i} is page {page}, part of {first}"),
            Again::Block(again) if again == first => write!(f, "{again} is reached twice"),
            Again::Block(again) => write!(f, "page {page} is part of {first}, and of {again}"),
        }
    }
}

impl Extent {
    /// The block that starts at a page, as far as the image has it.
    fn of(pages: Pages, first: u64) -> Option<Extent> {
        let block = pages.block(first)?;
        Some(Extent { first, last: block.last, type_name: block.header.type_name() })
    }
}

impl fmt::Display for Extent {
    fn fmt(&self, f: &mut fmt::Formatter) -> fmt::Result {
        let Extent { first, last, type_name } = self;
        if first == last {
            write!(f, "the {type_name} on page {first}")
        } else {
            write!(f, "the {type_name} on pages {first} to {last}")
        }
    }
}
