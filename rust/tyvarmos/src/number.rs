//! The numbers of the refusals.

use std::fmt;

/// The rule that was broken, by its number.
///
/// ```
/// use tyvarmos::Number;
///
/// assert_eq!(Number::from(6), Number::Order);
/// assert_eq!(Number::Order.code(), 6);
/// assert_eq!(Number::from(99).code(), 99);
/// ```
#[derive(Clone, Copy, Debug, PartialEq, Eq, Hash)]
#[non_exhaustive]
pub enum Number {
    /// 1: a page size or page count that is not allowed, or too few bytes.
    Geometry,
    /// 2: a page number outside 2 to the last page.
    PageNumber,
    /// 3: a header that is not that of the page wanted.
    Header,
    /// 4: a count of elements that cannot be.
    Table,
    /// 5: an element that is not inside its block, or is of no known kind.
    Element,
    /// 6: a key, or a free id, that is not above the one before it.
    Order,
    /// 7: a key outside the range that the branches above give its page.
    Range,
    /// 8: a page that is part of two blocks, of one that is named twice, or of one and listed as free.
    ReachedTwice,
    /// 9: a tree of more than 16 levels.
    TooDeep,
    /// 10: an output without room for the answer.
    OutputTooShort,
    /// 11: an argument that is not allowed, or a meta page of another page size.
    Argument,
    /// 12: no page is free and the page count cannot grow.
    Full,
    /// 13: a meta page whose hash is wrong.
    Hash,
    /// 14: a key in conflict with those that are there.
    Conflict,
    /// 15: a node above 1,048,576 bytes.
    NodeTooLarge,
    /// A number that this version does not know, as it was answered. Only `From<u64>` makes one.
    #[non_exhaustive]
    Unknown {
        /// The number.
        code: u64,
    },
}

impl Number {
    /// The number itself.
    #[must_use]
    pub const fn code(self) -> u64 {
        match self {
            Number::Geometry => 1,
            Number::PageNumber => 2,
            Number::Header => 3,
            Number::Table => 4,
            Number::Element => 5,
            Number::Order => 6,
            Number::Range => 7,
            Number::ReachedTwice => 8,
            Number::TooDeep => 9,
            Number::OutputTooShort => 10,
            Number::Argument => 11,
            Number::Full => 12,
            Number::Hash => 13,
            Number::Conflict => 14,
            Number::NodeTooLarge => 15,
            Number::Unknown { code } => code,
        }
    }

    /// What it means, in words.
    #[must_use]
    pub const fn meaning(self) -> &'static str {
        match self {
            Number::Geometry => {
                "the page size must be 1,024 to 65,536 and a multiple of 8, the page count 2 to 32,768, \
                 and the bytes must hold that many pages"
            }
            Number::PageNumber => "the page named here is not one from page 2 to the last page",
            Number::Header => {
                "the header is not that of the page wanted: another id, another type, or a block past the last page"
            }
            Number::Table => "the count of elements is 0 where it may not be, or more than the block can hold",
            Number::Element => {
                "this element's key or value is not inside the block, its kind is unknown, \
                 its bucket value is not 16 bytes, or it is a free id that is no page"
            }
            Number::Order => "this key (in a freelist, this id) is not above the one before it",
            Number::Range => "this key is outside the range that the branches above give its page",
            Number::ReachedTwice => "a page is used twice: it is part of two blocks, of one that is named twice, or of one and listed as free",
            Number::TooDeep => "the tree is deeper than 16 levels",
            Number::OutputTooShort => "the output is too short",
            Number::Argument => "an argument is not allowed, or the meta page is one of another page size",
            Number::Full => "no page is free and the page count cannot grow",
            Number::Hash => "the hash of the meta page is wrong",
            Number::Conflict => "the key is in conflict with those that are there",
            Number::NodeTooLarge => "the node is above 1,048,576 bytes",
            Number::Unknown { .. } => "this version does not know the number",
        }
    }
}

impl From<u64> for Number {
    fn from(code: u64) -> Number {
        match code {
            1 => Number::Geometry,
            2 => Number::PageNumber,
            3 => Number::Header,
            4 => Number::Table,
            5 => Number::Element,
            6 => Number::Order,
            7 => Number::Range,
            8 => Number::ReachedTwice,
            9 => Number::TooDeep,
            10 => Number::OutputTooShort,
            11 => Number::Argument,
            12 => Number::Full,
            13 => Number::Hash,
            14 => Number::Conflict,
            15 => Number::NodeTooLarge,
            _ => Number::Unknown { code },
        }
    }
}

impl From<Number> for u64 {
    fn from(number: Number) -> u64 {
        number.code()
    }
}

impl fmt::Display for Number {
    fn fmt(&self, f: &mut fmt::Formatter<'_>) -> fmt::Result {
        write!(f, "{} ({})", self.meaning(), self.code())
    }
}
