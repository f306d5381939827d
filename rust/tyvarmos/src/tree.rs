//! The numbers of a tree.

use crate::{Geometry, Meta};

/// Where a tree lies in an image: what a meta page tells, or a caller who knows better.
#[derive(Clone, Copy, Debug, PartialEq, Eq, Hash)]
pub struct Tree {
    /// How many bytes a page has: a multiple of 8 from 1,024 to 65,536.
    pub page_size: u64,
    /// How many pages the image has: 2 to 32,768.
    pub page_count: u64,
    /// The page at which the tree starts.
    pub root_page: u64,
    /// The page at which the freelist starts. A lookup does not look at it.
    pub freelist_page: u64,
}

impl Tree {
    /// The same image with another root, as a bucket's.
    #[must_use]
    pub const fn with_root_page(self, root_page: u64) -> Tree {
        Tree { root_page, ..self }
    }

    /// Whether the sizes are allowed and so many bytes hold the pages.
    ///
    /// # Errors
    ///
    /// The first cause for which they do not: the page size, a page count below 2, too few bytes, more pages than this
    /// version takes.
    pub fn geometry(&self, held: u64) -> Result<(), Geometry> {
        Geometry::check(held, self.page_size, self.page_count)
    }
}

impl From<Meta> for Tree {
    /// The main tree that a meta page names.
    fn from(meta: Meta) -> Tree {
        let Meta { page_size, page_count, root_page, freelist_page, .. } = meta;
        Tree { page_size, page_count, root_page, freelist_page }
    }
}
