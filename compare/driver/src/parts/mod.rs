//! The parts of the comparison. Each asks a subject and holds its answers against the crate, 01's text or the reading.

pub mod answers;
mod commons;
pub mod damaged;
pub mod examples;
pub mod files;
pub mod findings;
pub mod freelist;
pub mod hostile;
mod lookups;
pub mod meta;
pub mod node;
pub mod page;
pub mod refusals;
pub mod runs;
pub mod short;
pub mod split;
pub mod tree;

use subject::Subject;

use crate::rng::Rng;
use crate::tally::Tally;

/// One part run for one subject.
pub struct Run<'a> {
    pub subject: &'a dyn Subject,
    pub rng: Rng,
    pub rounds: usize,
    pub tally: Tally,
}

/// 01's largest node.
pub const MAX_NODE_SIZE: u64 = 1_048_576;

/// What lent output holds before a call, to see what stays.
pub const FILLER: u8 = 0x5A;

/// Lent output: so many bytes and some more.
pub fn lent(rng: &mut Rng, needed: usize) -> Vec<u8> {
    vec![FILLER; needed + rng.pick(&[0, 1, 7, 1_024])]
}

/// Whether lent output is as it was.
pub fn kept(out: &[u8]) -> bool {
    out.iter().all(|byte| *byte == FILLER)
}
