//! "Sizes allowed" and "Layout": the limits, and where each number of a page lies.

use crate::{refusal, Fault};

pub const MAX_PAGES: u64 = 32_768;
pub const MAX_LEVEL: u64 = 16;
pub const MAX_NODE_SIZE: u128 = 1_048_576;

pub const BRANCH: u8 = 1;
pub const LEAF: u8 = 2;
pub const META: u8 = 3;
pub const FREELIST: u8 = 4;

/// Where elements and ids start: over `ptr`, the last 8 bytes of the header struct.
pub const TABLE_START: usize = 32;
pub const HEADER_SIZE: u128 = 40;
pub const BRANCH_SIZE: usize = 24;
pub const LEAF_SIZE: usize = 32;
pub const BUCKET_VALUE_SIZE: usize = 16;

/// The first 32 bytes of a page.
pub struct Header {
    pub id: u64,
    pub kind: u8,
    pub count: u64,
    pub overflow: u64,
}

/// The little-endian number of 8 bytes at `at`.
pub fn u64_at(bytes: &[u8], at: usize) -> u64 {
    u64::from_le_bytes(bytes[at..at + 8].try_into().unwrap())
}

/// The little-endian number of 4 bytes at `at`.
pub fn u32_at(bytes: &[u8], at: usize) -> u32 {
    u32::from_le_bytes(bytes[at..at + 4].try_into().unwrap())
}

/// Writes `number` little-endian over 8 bytes at `at`.
pub fn put_u64(bytes: &mut [u8], at: usize, number: u64) {
    bytes[at..at + 8].copy_from_slice(&number.to_le_bytes());
}

/// The header of the page that starts these bytes.
pub fn header(page: &[u8]) -> Header {
    Header { id: u64_at(page, 0), kind: page[8], count: u64_at(page, 16), overflow: u64_at(page, 24) }
}

/// The length of an element of a leaf or of a branch.
pub fn element_size(leaf: bool) -> usize {
    if leaf {
        LEAF_SIZE
    } else {
        BRANCH_SIZE
    }
}

/// Refuses a page size that isn't allowed.
pub fn check_page_size(p: u64) -> Result<(), Fault> {
    let allowed = (1_024..=65_536).contains(&p) && p.is_multiple_of(8);
    allowed.then_some(()).ok_or(refusal(1))
}

/// Refuses a page count that isn't allowed.
pub fn check_page_count(n: u64) -> Result<(), Fault> {
    (2..=MAX_PAGES).contains(&n).then_some(()).ok_or(refusal(1))
}

/// Refuses a page size, a page count or an image too short for them.
pub fn check_image(image: &[u8], p: u64, n: u64) -> Result<(), Fault> {
    check_page_size(p)?;
    check_page_count(n)?;
    (image.len() as u64 >= n * p).then_some(()).ok_or(refusal(1))
}
