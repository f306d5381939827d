//! The bucket entries of a tree that the judge passed: counted in Rust, not proved.

use std::ops::ControlFlow;

use tyvarmos::Image;

use crate::layout::{Pages, LEAF};
use crate::walk;

const MOST_NAMES: usize = 8;

/// How many buckets a tree has, and the names of the first.
#[derive(Debug, Default, PartialEq, Eq)]
pub struct Buckets {
    pub count: u64,
    pub names: Vec<Vec<u8>>,
}

impl Buckets {
    /// The buckets of a sound image, in key order.
    pub fn of(image: &Image) -> Buckets {
        let pages = Pages::of(image);
        let mut buckets = Buckets::default();
        let _ = walk::all(pages, image.tree().root_page, &mut |page, _| {
            let leaf = pages.block(page).filter(|block| block.header.kind == LEAF);
            for (block, i) in leaf.iter().flat_map(|block| (0..block.count()).map(move |i| (block, i))) {
                if block.element(i).is_some_and(|element| element.tag == 1) {
                    buckets.count += 1;
                    buckets
                        .names
                        .extend(block.key(i).filter(|_| buckets.count <= MOST_NAMES as u64).map(<[u8]>::to_vec));
                }
            }
            ControlFlow::Continue(())
        });
        buckets
    }
}
