//! An image and the numbers it is asked about with.

use subject::{ask, Answer, Lookup, Subject};

#[derive(Clone)]
pub struct Image {
    pub bytes: Vec<u8>,
    pub p: u64,
    pub n: u64,
    pub root: u64,
    pub freelist: u64,
}

/// The first page of a block, and how many pages it has.
pub type Span = (u64, u64);

impl Image {
    /// Where a page starts.
    pub fn start(&self, page: u64) -> usize {
        (page * self.p) as usize
    }

    /// Entries, pages, page, element, common.
    pub fn judged(&self, s: &dyn Subject) -> Answer<5> {
        ask(|answer| s.judge(&self.bytes, self.p, self.n, self.root, self.freelist, answer))
    }

    /// Found, kind, place, length, page, element, common.
    pub fn looked(&self, call: Lookup, s: &dyn Subject, key: &[u8]) -> Answer<7> {
        call.by(s, &self.bytes, (self.p, self.n, self.root), key)
    }
}
