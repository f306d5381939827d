//! Document 01, as 02's orders 3 and 2 amend it, and 02's order 5, read plainly, from their text alone: straight code
//! over byte slices, with sums that cannot wrap.
//!
//! Nothing here is fast or clever. It is what the crate and the proved code are held against.

pub mod block;
pub mod common;
pub mod edit;
pub mod freelist;
pub mod judge;
pub mod layout;
pub mod lookup;
pub mod meta;
pub mod newest;
pub mod pack;
pub mod quick;
pub mod search;
pub mod split;
pub mod words;

/// A refusal: 01's number, and the page and element it names, 0 where none. `common` is the length of the common
/// beginning of the two keys of a 6 (the key and the one before it) or a 7 (the key and the end of the range that it
/// crossed); 0 for freelist ids and with every other number.
#[derive(Clone, Copy, Debug, PartialEq, Eq)]
pub struct Fault {
    pub number: u64,
    pub page: u64,
    pub element: u64,
    pub common: u64,
}

/// The refusal with this number that names nothing.
pub fn refusal(number: u64) -> Fault {
    Fault { number, page: 0, element: 0, common: 0 }
}
