//! Sound blocks of every sort.

use oracle::probe::{write_content, Content};

use super::{content, loose};
use crate::rng::Rng;

/// A block that keeps rules 5 to 7, and its content.
pub fn sound(rng: &mut Rng, leaf: bool, p: u64) -> (Vec<u8>, Content) {
    let id = rng.between(2, 40_000);
    let fewest = usize::from(!leaf);
    match rng.below(5) {
        0 => loose::windows(rng, leaf, p, id),
        1 => {
            let count = content::count(rng).max(fewest);
            let content = content::content(rng, leaf, count, p);
            let pages = content::size(&content).div_ceil(p) + rng.below(2) as u64;
            (loose::spread(rng, &content, p, id, pages), content)
        }
        2 => {
            let content = at_limit(rng, leaf, p);
            (write_content(&content, p, id, 0), content)
        }
        _ => {
            let count = content::count(rng).max(fewest);
            let content = content::content(rng, leaf, count, p);
            (write_content(&content, p, id, 0xAA), content)
        }
    }
}

/// A content whose size lies at a limit: of the page, of merging, of the split's threshold.
pub fn at_limit(rng: &mut Rng, leaf: bool, p: u64) -> Content {
    loop {
        let near = rng.pick(&[p, p, 2 * p, 3 * p, p / 4, p / 2]);
        let size = near + rng.between(0, 2) - 1;
        let count = rng.pick(&[1, 2, 3, 4, 5, 6, 7, 12, 30]);
        if let Some(content) = content::of_size(rng, leaf, count, size) {
            return content;
        }
    }
}
