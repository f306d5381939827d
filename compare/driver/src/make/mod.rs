//! Inputs: keys, node contents, blocks and images.

pub mod block;
pub mod content;
pub mod fields;
pub mod image;
pub mod loose;
pub mod overlap;
pub mod parting;
pub mod store;
pub mod tree;

use crate::rng::Rng;

/// Page sizes that meet the limits, and powers of two as well as others.
const PAGE_SIZES: [u64; 12] = [1_024, 1_024, 1_032, 1_096, 1_536, 2_048, 3_000, 4_096, 8_192, 16_384, 65_528, 65_536];

/// An allowed page size.
pub fn page_size(rng: &mut Rng) -> u64 {
    if rng.one_in(4) {
        return 8 * rng.between(128, 8_192);
    }
    rng.pick(&PAGE_SIZES)
}

/// An allowed page size near the lowest, where nodes pass several pages soon.
pub fn small_page_size(rng: &mut Rng) -> u64 {
    8 * rng.between(128, 256)
}
