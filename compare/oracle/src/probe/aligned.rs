//! A buffer whose start is aligned as the crate's pages need it.

use crate::page::Page;

pub struct Aligned {
    words: Vec<u64>,
}

impl Aligned {
    /// A buffer of `length` bytes, a multiple of 8, each of them `fill`.
    pub fn filled(length: usize, fill: u8) -> Aligned {
        Aligned { words: vec![u64::from_ne_bytes([fill; 8]); length / 8] }
    }

    /// A copy of these bytes.
    pub fn copy(bytes: &[u8]) -> Aligned {
        let mut buffer = Aligned::filled(bytes.len().next_multiple_of(8), 0);
        buffer.bytes_mut()[..bytes.len()].copy_from_slice(bytes);
        buffer
    }

    pub fn bytes(&self) -> &[u8] {
        unsafe { std::slice::from_raw_parts(self.words.as_ptr().cast(), self.words.len() * 8) }
    }

    pub fn bytes_mut(&mut self) -> &mut [u8] {
        unsafe { std::slice::from_raw_parts_mut(self.words.as_mut_ptr().cast(), self.words.len() * 8) }
    }

    /// The page at the start, over the whole buffer.
    pub fn page(&self) -> &Page {
        Page::from_buf(self.bytes(), 0, 0)
    }

    pub fn page_mut(&mut self) -> &mut Page {
        unsafe { &mut *self.words.as_mut_ptr().cast() }
    }
}
