//! The C functions of libshard.a, each in a safe call. A slice passes as pointer and length, the answer buffer last.

#![allow(unsafe_code)]

use crate::Tree;

#[cfg(not(all(target_pointer_width = "64", target_endian = "little")))]
compile_error!("libshard.a is for 64-bit, little-endian machines");

#[rustfmt::skip]
extern "C" {
    fn tyvarmos_lookup(
        image: *const u8, image_len: usize, page_size: u64, page_count: u64, root_page: u64,
        key: *const u8, key_len: usize, answer: *mut u8, answer_len: usize,
    ) -> u64;
    fn tyvarmos_quick(
        image: *const u8, image_len: usize, page_size: u64, page_count: u64, root_page: u64,
        key: *const u8, key_len: usize, answer: *mut u8, answer_len: usize,
    ) -> u64;
    fn tyvarmos_judge(
        image: *const u8, image_len: usize, page_size: u64, page_count: u64, root_page: u64, freelist_page: u64,
        answer: *mut u8, answer_len: usize,
    ) -> u64;
    fn tyvarmos_meta(
        image: *const u8, image_len: usize, page_size: u64, answer: *mut u8, answer_len: usize,
    ) -> u64;
}

/// A call's number and the fields that it wrote.
pub(crate) type Answer<const FIELDS: usize> = (u64, [u64; FIELDS]);

/// The number; found, kind, place, length, page, element, common.
pub(crate) fn lookup(image: &[u8], tree: &Tree, key: &[u8]) -> Answer<7> {
    let (start, length) = (image.as_ptr(), image.len());
    let Tree { page_size, page_count, root_page, .. } = *tree;
    // SAFETY: both slices are lent for reading, and the answer buffer has room for the seven fields.
    ask(|answer, room| unsafe {
        tyvarmos_lookup(start, length, page_size, page_count, root_page, key.as_ptr(), key.len(), answer, room)
    })
}

/// The same, where of each page only the header and the elements that halving comes by are judged.
pub(crate) fn quick(image: &[u8], tree: &Tree, key: &[u8]) -> Answer<7> {
    let (start, length) = (image.as_ptr(), image.len());
    let Tree { page_size, page_count, root_page, .. } = *tree;
    // SAFETY: both slices are lent for reading, and the answer buffer has room for the seven fields.
    ask(|answer, room| unsafe {
        tyvarmos_quick(start, length, page_size, page_count, root_page, key.as_ptr(), key.len(), answer, room)
    })
}

/// The number; entries, pages, page, element, common.
pub(crate) fn judge(image: &[u8], tree: &Tree) -> Answer<5> {
    let (start, length) = (image.as_ptr(), image.len());
    let Tree { page_size, page_count, root_page, freelist_page } = *tree;
    // SAFETY: the image is lent for reading, and the answer buffer has room for the five fields.
    ask(|answer, room| unsafe {
        tyvarmos_judge(start, length, page_size, page_count, root_page, freelist_page, answer, room)
    })
}

/// The number; meta page, page size, root page, next int, page count, freelist page, transaction.
pub(crate) fn meta(image: &[u8], page_size: u64) -> Answer<7> {
    let (start, length) = (image.as_ptr(), image.len());
    // SAFETY: the image is lent for reading, and the answer buffer has room for the seven fields.
    ask(|answer, room| unsafe { tyvarmos_meta(start, length, page_size, answer, room) })
}

/// What a call that is given an answer buffer and its length returns and writes.
fn ask<const FIELDS: usize>(call: impl FnOnce(*mut u8, usize) -> u64) -> Answer<FIELDS> {
    let mut fields = [[0; 8]; FIELDS];
    let number = call(fields.as_mut_ptr().cast(), FIELDS * 8);
    (number, fields.map(u64::from_le_bytes))
}
