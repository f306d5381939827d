//! "Login's lookup" (02's order 5): a descent that halves in each page and judges only the elements it looks at.

use crate::block::{block_bytes, read_element, table_end, Entry};
use crate::layout::*;
use crate::lookup::{check_reached, Found};
use crate::Fault;
use std::cmp::Ordering;

/// A page that keeps rules 4 and 5: its number, its offset in the image, its block and what its header tells of it.
struct Page<'a> {
    number: u64,
    start: usize,
    bytes: &'a [u8],
    leaf: bool,
    count: usize,
    table_end: u128,
}

/// One quick lookup, and the ranges of the image that it has looked at so far.
struct Walk<'a> {
    image: &'a [u8],
    p: u64,
    n: u64,
    key: &'a [u8],
    places: Vec<(u64, u64)>,
}

/// The entry with this key under `root` by the quick rule, nothing when absent.
pub fn quick(image: &[u8], p: u64, n: u64, root: u64, key: &[u8]) -> Result<Option<Found>, Fault> {
    Walk::new(image, p, n, key).descend(root)
}

/// The start and length of each range of the image that `quick` looks at, in turn; none is empty.
pub fn quick_places(image: &[u8], p: u64, n: u64, root: u64, key: &[u8]) -> Vec<(u64, u64)> {
    let mut walk = Walk::new(image, p, n, key);
    let _ = walk.descend(root);
    walk.places
}

impl<'a> Walk<'a> {
    /// A walk that has looked at nothing.
    fn new(image: &'a [u8], p: u64, n: u64, key: &'a [u8]) -> Walk<'a> {
        Walk { image, p, n, key, places: Vec::new() }
    }

    /// The answer of the walk from `root`, level 1.
    fn descend(&mut self, root: u64) -> Result<Option<Found>, Fault> {
        check_image(self.image, self.p, self.n)?;
        let mut number = root;
        let mut level = 1;
        loop {
            check_reached(number, level, self.n)?;
            let page = self.page(number, level == 1)?;
            let (i, found) = self.halve(&page)?;
            if page.leaf {
                return found.then(|| page.found(i)).transpose();
            }
            number = self.child(&page, i);
            level += 1;
        }
    }

    /// The page of this number, by rules 4 and 5.
    fn page(&mut self, number: u64, empty_allowed: bool) -> Result<Page<'a>, Fault> {
        let start = (number * self.p) as usize;
        self.place(start, 8);
        self.place(start + 8, 1);
        self.place(start + 16, 16);
        let bytes = block_bytes(self.image, self.p, self.n, number, &[BRANCH, LEAF])?;
        let table_end = table_end(bytes, empty_allowed).map_err(|fault| Fault { page: number, ..fault })?;
        let header = header(bytes);
        Ok(Page { number, start, bytes, leaf: header.kind == LEAF, count: header.count as usize, table_end })
    }

    /// The index of the equal key that the halving meets and true; with none low less one, never below 0, and false.
    fn halve(&mut self, page: &Page<'a>) -> Result<(usize, bool), Fault> {
        let mut low = 0;
        let mut high = page.count;
        while low < high {
            let middle = low + (high - low) / 2;
            match self.look(page, middle)?.cmp(self.key) {
                Ordering::Equal => return Ok((middle, true)),
                Ordering::Less => low = middle + 1,
                Ordering::Greater => high = middle,
            }
        }
        Ok((low.saturating_sub(1), false))
    }

    /// The key of an element, which is judged by rule 6 alone.
    fn look(&mut self, page: &Page<'a>, element: usize) -> Result<&'a [u8], Fault> {
        let at = page.start + page.element_start(element);
        if page.leaf {
            self.place(at, 1);
            self.place(at + 8, 24);
        } else {
            self.place(at + 8, 16);
        }
        let (entry, key_start) = page.element(element)?;
        self.place(page.start + key_start, entry.key.len().min(self.key.len()));
        Ok(entry.key)
    }

    /// The page number that an element of a branch names.
    fn child(&mut self, page: &Page, element: usize) -> u64 {
        let at = page.start + page.element_start(element);
        self.place(at, 8);
        u64_at(self.image, at)
    }

    /// Notes a range of the image as looked at, unless it is empty.
    fn place(&mut self, start: usize, length: usize) {
        if length > 0 {
            self.places.push((start as u64, length as u64));
        }
    }
}

impl<'a> Page<'a> {
    /// Where in the block an element starts.
    fn element_start(&self, element: usize) -> usize {
        TABLE_START + element * element_size(self.leaf)
    }

    /// The entry of an element and where in the block its key starts; 5 on a breach of rule 6.
    fn element(&self, element: usize) -> Result<(Entry<'a>, usize), Fault> {
        let fault = Fault { number: 5, page: self.number, element: element as u64, common: 0 };
        read_element(self.bytes, self.leaf, element, self.table_end).ok_or(fault)
    }

    /// The answer for an entry of a leaf.
    fn found(&self, element: usize) -> Result<Found, Fault> {
        let (entry, key_start) = self.element(element)?;
        let place = (self.start + key_start + entry.key.len()) as u64;
        Ok(Found { kind: entry.tag, place, length: entry.value.len() as u64 })
    }
}
