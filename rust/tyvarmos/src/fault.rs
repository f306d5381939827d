//! A refusal.

use std::error::Error;
use std::fmt;

use crate::{Geometry, Number};

/// Why an image was refused: the rule, the page and element that broke it, and where two keys part.
///
/// ```
/// use tyvarmos::{Fault, Number};
///
/// let fault = Fault::at_page(Number::TooDeep, 17);
/// assert_eq!(fault.to_string(), "page 17: the tree is deeper than 16 levels (9)");
/// ```
#[derive(Clone, Copy, Debug, PartialEq, Eq, Hash)]
#[non_exhaustive]
pub struct Fault {
    /// The rule that was broken.
    pub number: Number,
    /// The page that broke it; of a block that shares pages the lowest of these. None for [`Number::Geometry`] and for
    /// meta pages.
    pub page: Option<u64>,
    /// The element of that page, or the free id, counted from 0. None where the page as a whole broke the rule.
    pub element: Option<u64>,
    /// How many bytes two keys have in common, from the first on: of [`Number::Order`] the element's key and the one before
    /// it; of [`Number::Range`] the element's key and the end of its range that it crosses, the lower end where the key
    /// is below that and else the upper end. The first byte that differs has this index, unless a key ends there. It is 0
    /// for free ids, and with every other number.
    pub common: u64,
    /// Which sizes are wrong, where it is sizes that are.
    pub geometry: Option<Geometry>,
}

impl Fault {
    /// The fault that names no page.
    #[must_use]
    pub const fn new(number: Number) -> Fault {
        Fault { number, page: None, element: None, common: 0, geometry: None }
    }

    /// The fault that names a page as a whole.
    #[must_use]
    pub const fn at_page(number: Number, page: u64) -> Fault {
        Fault { page: Some(page), ..Fault::new(number) }
    }

    /// The fault that names an element of a page.
    #[must_use]
    pub const fn at_element(number: Number, page: u64, element: u64) -> Fault {
        Fault { element: Some(element), ..Fault::at_page(number, page) }
    }

    /// The same fault, of two keys that have so many bytes in common, from the first on.
    #[must_use]
    pub const fn with_common(self, common: u64) -> Fault {
        Fault { common, ..self }
    }

    /// Whether it says that the file is beyond the limits of this version, and nothing about damage.
    #[must_use]
    pub fn is_limit(&self) -> bool {
        self.geometry.is_some_and(Geometry::is_limit)
    }

    /// What is said of the beginning that two keys have in common. Of a 6 nothing where there is none, since free ids
    /// have none either.
    fn beginning(&self) -> String {
        match (self.number, self.common) {
            (Number::Order, 1) => ", the first byte is the same".to_string(),
            (Number::Order, 2..) => format!(", the first {} bytes are the same", self.common),
            (Number::Range, 0) => ", it has no beginning in common with the end that it crosses".to_string(),
            (Number::Range, 1) => ", its first byte is that of the end that it crosses".to_string(),
            (Number::Range, _) => format!(", its first {} bytes are those of the end that it crosses", self.common),
            _ => String::new(),
        }
    }

    /// The fault with a number, page and element as the C functions answer them, where a 0 may stand for none.
    pub(crate) fn answered(code: u64, page: u64, element: u64) -> Fault {
        let number = Number::from(code);
        match number {
            Number::PageNumber | Number::Header | Number::Table | Number::TooDeep => Fault::at_page(number, page),
            Number::Element | Number::Order | Number::Range => Fault::at_element(number, page, element),
            Number::ReachedTwice => Fault { page: Some(page), element: above_0(element), ..Fault::new(number) },
            _ => Fault { page: above_0(page), element: above_0(element), ..Fault::new(number) },
        }
    }
}

/// The number, or none for 0.
fn above_0(number: u64) -> Option<u64> {
    (number > 0).then_some(number)
}

impl From<Geometry> for Fault {
    /// The refusal with [`Number::Geometry`] for this cause.
    fn from(geometry: Geometry) -> Fault {
        Fault { geometry: Some(geometry), ..Fault::new(Number::Geometry) }
    }
}

impl fmt::Display for Fault {
    fn fmt(&self, f: &mut fmt::Formatter<'_>) -> fmt::Result {
        match (self.page, self.element) {
            (Some(page), Some(element)) => write!(f, "page {page}, element {element}: ")?,
            (Some(page), None) => write!(f, "page {page}: ")?,
            (None, _) => {}
        }
        let code = self.number.code();
        match self.geometry {
            Some(geometry) => write!(f, "{geometry} ({code})"),
            None => write!(f, "{}{} ({code})", self.number.meaning(), self.beginning()),
        }
    }
}

impl Error for Fault {}

#[cfg(test)]
mod tests {
    use super::*;

    #[test]
    fn a_number_that_is_not_known_keeps_what_it_names() {
        let fault = Fault::answered(16, 7, 3);
        assert_eq!((fault.number.code(), fault.page, fault.element), (16, Some(7), Some(3)));
        assert_eq!(fault.to_string(), "page 7, element 3: this version does not know the number (16)");
        assert_eq!(Fault::answered(17, 0, 0), Fault::new(Number::from(17)));
    }

    #[test]
    fn a_common_beginning_is_told() {
        let order = Fault::at_element(Number::Order, 4, 1);
        let meaning = "page 4, element 1: this key (in a freelist, this id) is not above the one before it";
        assert_eq!(order.to_string(), format!("{meaning} (6)"));
        assert_eq!(order.with_common(1).to_string(), format!("{meaning}, the first byte is the same (6)"));
        assert_eq!(order.with_common(11).to_string(), format!("{meaning}, the first 11 bytes are the same (6)"));
        let range = |common| Fault::at_element(Number::Range, 4, 1).with_common(common).to_string();
        let meaning = "page 4, element 1: this key is outside the range that the branches above give its page";
        assert_eq!(range(0), format!("{meaning}, it has no beginning in common with the end that it crosses (7)"));
        assert_eq!(range(1), format!("{meaning}, its first byte is that of the end that it crosses (7)"));
        assert_eq!(range(11), format!("{meaning}, its first 11 bytes are those of the end that it crosses (7)"));
        let deep = Fault::at_page(Number::TooDeep, 4).with_common(3);
        assert_eq!((deep.common, deep.to_string().as_str()), (3, "page 4: the tree is deeper than 16 levels (9)"));
    }

    #[test]
    fn a_page_or_element_0_is_told_from_none() {
        assert_eq!(Fault::answered(2, 0, 0), Fault::at_page(Number::PageNumber, 0));
        assert_eq!(Fault::answered(6, 4, 0), Fault::at_element(Number::Order, 4, 0));
        assert_eq!(Fault::answered(8, 4, 0), Fault::at_page(Number::ReachedTwice, 4));
        assert_eq!(Fault::answered(13, 0, 0), Fault::new(Number::Hash));
    }
}
