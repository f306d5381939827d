//! The freelist of one transaction.

use super::meta_page::{meta_of, Fields};
use crate::freelist::{Freelist, TxFreelist};

/// The crate's `TxFreelist` with the `Freelist` in it.
pub struct FreeTable {
    pub(super) inner: TxFreelist,
}

impl FreeTable {
    /// No page free, `num_pages` pages in the file.
    pub fn new(pagesize: u64, num_pages: u64) -> FreeTable {
        let fields = Fields { pagesize, num_pages, ..Fields::default() };
        FreeTable { inner: TxFreelist::new(meta_of(&fields), Freelist::new()) }
    }

    /// The same table again.
    pub fn copy(&self) -> FreeTable {
        FreeTable { inner: TxFreelist::new(self.inner.meta.clone(), self.inner.inner.clone()) }
    }

    pub fn init(&mut self, ids: &[u64]) {
        self.inner.inner.init(ids);
    }

    /// Frees `count` pages from `first` on under transaction `t`.
    pub fn free(&mut self, first: u64, count: u64, t: u64) {
        self.inner.meta.tx_id = t;
        self.inner.free(first, count);
    }

    pub fn release(&mut self, t: u64) {
        self.inner.inner.release(t);
    }

    /// The start of the pages for these bytes, and the number of pages in the file after; nothing where it panics.
    pub fn allocate(&mut self, bytes: u64) -> Option<(u64, u64)> {
        let start = super::caught(|| self.inner.allocate(bytes).unwrap().id)?;
        self.inner.pages.clear();
        self.inner.arena.reset();
        Some((start, self.num_pages()))
    }

    pub fn num_pages(&self) -> u64 {
        self.inner.meta.num_pages
    }

    pub fn pages(&self) -> Vec<u64> {
        self.inner.inner.pages()
    }

    pub fn size(&self) -> u64 {
        self.inner.inner.size()
    }
}
