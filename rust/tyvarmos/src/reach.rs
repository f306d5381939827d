//! Whether a block of a tree has a page: read in Rust, to tell two refusals apart, and not proved.

use crate::Image;

const TYPE_AT: u64 = 8;
const COUNT_AT: u64 = 16;
const OVERFLOW_AT: u64 = 24;
const TABLE_AT: u64 = 32;
const BRANCH_SIZE: u64 = 24;
const TYPE_BRANCH: u64 = 1;
const LEVELS: u64 = 16;

/// Whether a block of the image's tree has this page, the first or another.
///
/// Asked where the judge has refused the page, or a free id, as used twice. In its order all is sound up to the first
/// block that has the page, or to the end where none has, so each block is read once.
pub(crate) fn tree_has(image: &Image<'_>, page: u64) -> bool {
    has(image, image.tree().root_page, LEVELS, page).unwrap_or(false)
}

/// The same for the subtree of so many levels that starts with a page, none where it is not in the bytes.
fn has(image: &Image<'_>, first: u64, levels: u64, page: u64) -> Option<bool> {
    let start = first.checked_mul(image.tree().page_size)?;
    let number = |at: u64| number(image.bytes(), start.checked_add(at)?);
    let last = first.saturating_add(number(OVERFLOW_AT)?);
    if (first..=last).contains(&page) {
        return Some(true);
    }
    let is_branch = number(TYPE_AT)? % 256 == TYPE_BRANCH;
    let children = if is_branch && levels > 1 { number(COUNT_AT)? } else { 0 };
    let child_has = |i: u64| has(image, number(TABLE_AT + i * BRANCH_SIZE)?, levels - 1, page);
    Some((0..children).any(|i| child_has(i).unwrap_or(false)))
}

/// The number at a place.
fn number(bytes: &[u8], at: u64) -> Option<u64> {
    bytes.get(usize::try_from(at).ok()?..)?.first_chunk().copied().map(u64::from_le_bytes)
}
