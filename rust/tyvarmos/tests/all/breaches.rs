//! One image for each number that the judge can give, and the sentence that goes with it.

use reading::layout::put_u64;
use reading::pack::{pack, Node};
use tyvarmos::{Fault, Geometry, Image, Number};

use crate::small::{self, FREELIST, N, P, ROOT};

/// A damaged image, the sizes it is judged with, and what the judge says.
pub struct Breach {
    pub bytes: Vec<u8>,
    pub sizes: [u64; 4],
    pub fault: Fault,
    pub sentence: &'static str,
}

impl Breach {
    pub fn image(&self) -> Image<'_> {
        Image::new(&self.bytes, small::tree(self.sizes))
    }
}

/// The small image with a word changed: where in which page, and to what.
fn changed(page: u64, at: usize, number: u64, fault: Fault, sentence: &'static str) -> Breach {
    let mut bytes = small::image();
    put_u64(&mut bytes, (page * P) as usize + at, number);
    breach(bytes, [P, N, ROOT, FREELIST], fault, sentence)
}

/// The small image judged with other sizes.
fn sized(sizes: [u64; 4], fault: Fault, sentence: &'static str) -> Breach {
    breach(small::image(), sizes, fault, sentence)
}

fn breach(bytes: Vec<u8>, sizes: [u64; 4], fault: Fault, sentence: &'static str) -> Breach {
    Breach { bytes, sizes, fault, sentence }
}

/// The small image with a leaf on the freelist's page, which the last branch names.
fn freelist_in_the_tree() -> Breach {
    let mut bytes = small::image();
    let (from, to) = ((10 * P) as usize, (FREELIST * P) as usize);
    bytes.copy_within(from..from + P as usize, to);
    put_u64(&mut bytes, to, FREELIST);
    put_u64(&mut bytes, (7 * P) as usize + 32 + 24, FREELIST);
    breach(bytes, [P, N, ROOT, FREELIST], Fault::at_page(Number::Header, FREELIST), FREELIST_HEADER)
}

/// The small image with a freelist of two ids in the value of leaf 5, where its second page starts.
fn freelist_in_a_leaf() -> Breach {
    let mut bytes = small::image();
    let (from, to) = ((FREELIST * P) as usize, (6 * P) as usize);
    bytes.copy_within(from..from + 32 + 16, to);
    put_u64(&mut bytes, to, 6);
    breach(bytes, [P, N, ROOT, 6], Fault::at_page(Number::ReachedTwice, 6), FREELIST_PAGE)
}

/// Seventeen levels, one branch in each but the last.
fn too_deep() -> Breach {
    let mut bytes = vec![0; 20 * P as usize];
    for page in 2..18 {
        let entry = reading::block::Entry { tag: page + 1, key: b"", value: b"" };
        let block = pack(&Node { id: page, leaf: false, entries: vec![entry] }, P);
        bytes[(page * P) as usize..][..block.len()].copy_from_slice(&block);
    }
    breach(bytes, [P, 20, 2, 19], Fault::at_page(Number::TooDeep, 18), DEPTH)
}

const SIZE: &str = "the page size is 1,000; this version takes multiples of 8 from 1,024 to 65,536 (1)";
const BYTES: &str = "the bytes hold 12,288 of the 13,312 that 13 pages of 1,024 take (1)";
const ROOT_PAGE: &str = "page 0: the page named here is not one from page 2 to the last page (2)";
const PAGE: &str = "page 99: the page named here is not one from page 2 to the last page (2)";
const HEADER: &str =
    "page 8: the header is not that of the page wanted: another id, another type, or a block past the last page (3)";
const TABLE: &str = "page 10: the count of elements is 0 where it may not be, or more than the block can hold (4)";
const ELEMENT: &str = "page 4, element 1: this element's key or value is not inside the block, its kind is unknown, \
                       its bucket value is not 16 bytes, or it is a free id that is no page (5)";
const ORDER: &str =
    "page 4, element 1: this key (in a freelist, this id) is not above the one before it, the first byte is the same (6)";
const RANGE: &str = "page 10, element 0: this key is outside the range that the branches above give its page, \
                     it has no beginning in common with the end that it crosses (7)";
const LEAF_AS_FREELIST: &str =
    "page 4: the header is not that of the page wanted: another id, another type, or a block past the last page (3)";
const FREELIST_HEADER: &str =
    "page 2: the header is not that of the page wanted: another id, another type, or a block past the last page (3)";
const TWICE: &str = "page 4: a page is used twice: it is part of two blocks, of one that is named twice, or of one and listed as free (8)";
const OVERLAP: &str = "page 7: a page is used twice: it is part of two blocks, of one that is named twice, or of one and listed as free (8)";
const FREELIST_OVERLAP: &str =
    "page 3: a page is used twice: it is part of two blocks, of one that is named twice, or of one and listed as free (8)";
const FREELIST_PAGE: &str = "page 6: a page is used twice: it is part of two blocks, of one that is named twice, or of one and listed as free (8)";
const FREE_ID_0: &str =
    "page 2, element 0: a page is used twice: it is part of two blocks, of one that is named twice, or of one and listed as free (8)";
const FREE_ID: &str =
    "page 2, element 1: a page is used twice: it is part of two blocks, of one that is named twice, or of one and listed as free (8)";
const DEPTH: &str = "page 18: the tree is deeper than 16 levels (9)";

/// A breach of each rule, and of the freelist's.
pub fn all() -> Vec<Breach> {
    vec![
        sized([1_000, N, ROOT, FREELIST], Geometry::PageSize { page_size: 1_000 }.into(), SIZE),
        sized(
            [P, 13, ROOT, FREELIST],
            Geometry::TooFewBytes { held: 12_288, page_size: P, page_count: 13 }.into(),
            BYTES,
        ),
        sized([P, N, 0, FREELIST], Fault::at_page(Number::PageNumber, 0), ROOT_PAGE),
        changed(7, 32, 99, Fault::at_page(Number::PageNumber, 99), PAGE),
        changed(8, 0, 4, Fault::at_page(Number::Header, 8), HEADER),
        changed(10, 16, 32, Fault::at_page(Number::Table, 10), TABLE),
        changed(4, 32 + 32 + 8, u64::MAX, Fault::at_element(Number::Element, 4, 1), ELEMENT),
        changed(4, 32 + 32 + 16, 1, Fault::at_element(Number::Order, 4, 1).with_common(1), ORDER),
        changed(3, 32 + 24, 10, Fault::at_element(Number::Range, 10, 0), RANGE),
        sized([P, N, ROOT, 4], Fault::at_page(Number::Header, 4), LEAF_AS_FREELIST),
        freelist_in_the_tree(),
        changed(3, 32 + 24, 4, Fault::at_page(Number::ReachedTwice, 4), TWICE),
        changed(5, 24, 2, Fault::at_page(Number::ReachedTwice, 7), OVERLAP),
        changed(2, 24, 1, Fault::at_page(Number::ReachedTwice, 3), FREELIST_OVERLAP),
        freelist_in_a_leaf(),
        changed(2, 32, 5, Fault::at_element(Number::ReachedTwice, FREELIST, 0), FREE_ID_0),
        changed(2, 32, 6, Fault::at_element(Number::ReachedTwice, FREELIST, 0), FREE_ID_0),
        changed(2, 40, 10, Fault::at_element(Number::ReachedTwice, FREELIST, 1), FREE_ID),
        too_deep(),
    ]
}

#[test]
fn each_breach_has_its_number_and_sentence() {
    for breach in all() {
        let fault = breach.image().judge().unwrap_err();
        assert_eq!(fault, breach.fault);
        assert_eq!(fault.to_string(), breach.sentence);
    }
    let numbers: std::collections::BTreeSet<u64> = all().iter().map(|breach| breach.fault.number.code()).collect();
    assert_eq!(numbers, (1..=9).collect());
}

#[test]
fn each_number_has_a_sentence_of_its_own() {
    let meaning = |code: u64| Number::from(code).meaning();
    let meanings: std::collections::BTreeSet<&str> = (1..=16).map(meaning).collect();
    assert_eq!(meanings.len(), 16);
    assert!(meanings.iter().all(|meaning| meaning.len() > 15));
    assert_eq!(meaning(16), meaning(0));
}

#[test]
fn a_number_is_kept_as_it_was_answered() {
    for code in (0..=40).chain([u64::MAX]) {
        assert_eq!(Number::from(code).code(), code);
        assert_eq!(u64::from(Number::from(code)), code);
        assert_eq!(matches!(Number::from(code), Number::Unknown { .. }), !(1..=15).contains(&code));
        assert!(Number::from(code).to_string().ends_with(&format!(" ({code})")));
    }
}
