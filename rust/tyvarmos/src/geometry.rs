//! Which of its causes a refusal of sizes has.

use std::error::Error;
use std::fmt;

const LEAST_SIZE: u64 = 1_024;
const MOST_SIZE: u64 = 65_536;
const SIZE_STEP: u64 = 8;
const LEAST_COUNT: u64 = 2;
const MOST_COUNT: u64 = 32_768;
pub(crate) const META_BYTES: u64 = 104;

/// Why the sizes of an image are refused, with the numbers.
///
/// It is worked out here from the numbers, after the proved call has refused them: help for a person, not proved.
///
/// ```
/// use tyvarmos::{Geometry, Tree};
///
/// let tree = Tree { page_size: 4_096, page_count: 40_000, root_page: 3, freelist_page: 2 };
/// let whole = tree.geometry(4_096 * 40_000).unwrap_err();
/// assert_eq!(whole.to_string(), "the page count is 40,000; this version takes 2 to 32,768");
/// assert!(whole.is_limit());
///
/// let cut = tree.geometry(8_192).unwrap_err();
/// assert_eq!(cut.to_string(), "the bytes hold 8,192 of the 163,840,000 that 40,000 pages of 4,096 take");
/// assert!(!cut.is_limit());
/// ```
#[derive(Clone, Copy, Debug, PartialEq, Eq, Hash)]
#[non_exhaustive]
pub enum Geometry {
    /// A page size that is no multiple of 8 from 1,024 to 65,536.
    PageSize {
        /// The page size given, or the one that meta page 0 names.
        page_size: u64,
    },
    /// A page count below 2, or one above 32,768 that the bytes have room for.
    PageCount {
        /// The page count given.
        page_count: u64,
    },
    /// Fewer bytes than the pages take.
    TooFewBytes {
        /// The bytes that are there.
        held: u64,
        /// The page size.
        page_size: u64,
        /// The page count; 2 where it is the meta pages that are not there.
        page_count: u64,
    },
    /// Fewer bytes than one meta page's fields take, which end at byte 104.
    NoMeta {
        /// The bytes that are there.
        held: u64,
    },
}

impl Geometry {
    /// Whether it is a limit of this version and no damage: a page size that it does not take, or more pages than it
    /// takes in a file that holds them.
    #[must_use]
    pub const fn is_limit(self) -> bool {
        match self {
            Geometry::PageSize { .. } => true,
            Geometry::PageCount { page_count } => page_count > MOST_COUNT,
            Geometry::TooFewBytes { .. } | Geometry::NoMeta { .. } => false,
        }
    }

    /// The first cause for which so many bytes cannot be pages of this size and count.
    pub(crate) fn check(held: u64, page_size: u64, page_count: u64) -> Result<(), Geometry> {
        let size_allowed = (LEAST_SIZE..=MOST_SIZE).contains(&page_size) && page_size % SIZE_STEP == 0;
        let needed = page_size.saturating_mul(page_count);
        if !size_allowed {
            Err(Geometry::PageSize { page_size })
        } else if page_count < LEAST_COUNT {
            Err(Geometry::PageCount { page_count })
        } else if held < needed {
            Err(Geometry::TooFewBytes { held, page_size, page_count })
        } else if page_count > MOST_COUNT {
            Err(Geometry::PageCount { page_count })
        } else {
            Ok(())
        }
    }
}

impl fmt::Display for Geometry {
    fn fmt(&self, f: &mut fmt::Formatter<'_>) -> fmt::Result {
        match *self {
            Geometry::PageSize { page_size } => {
                let [size, least, most] = [page_size, LEAST_SIZE, MOST_SIZE].map(grouped);
                write!(f, "the page size is {size}; this version takes multiples of {SIZE_STEP} from {least} to {most}")
            }
            Geometry::PageCount { page_count } => {
                let [count, least, most] = [page_count, LEAST_COUNT, MOST_COUNT].map(grouped);
                write!(f, "the page count is {count}; this version takes {least} to {most}")
            }
            Geometry::TooFewBytes { held, page_size, page_count } => {
                let needed = u128::from(page_size) * u128::from(page_count);
                let [held, size, count] = [held, page_size, page_count].map(grouped);
                let needed = grouped(needed);
                write!(f, "the bytes hold {held} of the {needed} that {count} pages of {size} take")
            }
            Geometry::NoMeta { held } => {
                let [held, least] = [held, META_BYTES].map(grouped);
                write!(f, "the bytes hold {held} of the {least} that a meta page takes at least")
            }
        }
    }
}

impl Error for Geometry {}

/// A number with a comma before each three digits.
fn grouped(number: impl Into<u128>) -> String {
    let digits = number.into().to_string();
    let mut text = String::new();
    for (i, digit) in digits.chars().enumerate() {
        if i > 0 && (digits.len() - i) % 3 == 0 {
            text.push(',');
        }
        text.push(digit);
    }
    text
}
