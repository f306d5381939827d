//! An image that may hold anything.

use std::fmt;

use crate::reach::tree_has;
use crate::{raw, Entry, Fault, Geometry, Kind, Meta, Number, Sound, Tree};

/// A tree in lent bytes. Nothing about it is known to hold.
///
/// ```
/// use tyvarmos::{Fault, Image, Number, Tree};
///
/// let bytes = vec![0; 8_192];
/// let tree = Tree { page_size: 1_024, page_count: 8, root_page: 3, freelist_page: 2 };
/// let fault = Image::new(&bytes, tree).judge().unwrap_err();
/// assert_eq!(fault, Fault::at_page(Number::Header, 3));
/// ```
#[derive(Clone, Copy)]
pub struct Image<'a> {
    bytes: &'a [u8],
    tree: Tree,
}

impl<'a> Image<'a> {
    /// The tree in these bytes. Any numbers may be given: `judge` and `lookup` refuse what does not fit.
    #[must_use]
    pub const fn new(bytes: &'a [u8], tree: Tree) -> Image<'a> {
        Image { bytes, tree }
    }

    /// The main tree of a file, as the newer of its two meta pages tells.
    ///
    /// ```
    /// # fn main() -> Result<(), Box<dyn std::error::Error>> {
    /// let bytes = std::fs::read("../../examples/shard.db")?;
    /// let image = tyvarmos::Image::of_file(&bytes)?;
    /// assert!(image.lookup(b"characters")?.is_some());
    /// # Ok(())
    /// # }
    /// ```
    ///
    /// # Errors
    ///
    /// As [`Meta::of`]: neither meta page can be used.
    pub fn of_file(bytes: &'a [u8]) -> Result<Image<'a>, Fault> {
        Ok(Meta::of(bytes)?.image(bytes))
    }

    /// The same image with another root, as a bucket's.
    #[must_use]
    pub const fn with_root_page(self, root_page: u64) -> Image<'a> {
        Image { tree: self.tree.with_root_page(root_page), ..self }
    }

    /// The bytes lent.
    #[must_use]
    pub const fn bytes(&self) -> &'a [u8] {
        self.bytes
    }

    /// The tree's numbers.
    #[must_use]
    pub const fn tree(&self) -> Tree {
        self.tree
    }

    /// The entry with this key, or none. Each whole page met on the way is judged first, no other byte is read.
    ///
    /// # Errors
    ///
    /// The first breach on the way: the sizes, or a rule that a page met does not keep.
    pub fn lookup(&self, key: &[u8]) -> Result<Option<Entry<'a>>, Fault> {
        self.looked(raw::lookup(self.bytes, &self.tree, key))
    }

    /// What `lookup` answers, for an image that passed the judge. On another it may find or miss a key where `lookup`
    /// refuses, since it looks at little of each page.
    pub(crate) fn quick(&self, key: &[u8]) -> Result<Option<Entry<'a>>, Fault> {
        self.looked(raw::quick(self.bytes, &self.tree, key))
    }

    /// The tree of the bucket with this name, or none where the name is absent or another kind of entry.
    ///
    /// # Errors
    ///
    /// As [`Image::lookup`].
    pub fn bucket(&self, name: &[u8]) -> Result<Option<Image<'a>>, Fault> {
        let bucket = self.lookup(name)?.and_then(|entry| entry.bucket());
        Ok(bucket.map(|bucket| self.with_root_page(bucket.root_page)))
    }

    /// The image with the knowledge that it is sound. Every page of this one tree is read, and the freelist page; the
    /// trees of its buckets are not. On the deepest trees it took less than 20,000 bytes of stack.
    ///
    /// # Errors
    ///
    /// The first breach, in the order of the walk: a page before its children, child 0 and all below it before child 1,
    /// the freelist page last.
    pub fn judge(self) -> Result<Sound<'a>, Fault> {
        let (number, [entries, pages, named @ ..]) = raw::judge(self.bytes, &self.tree);
        match number {
            0 => Ok(Sound { image: self, entries, pages }),
            _ => Err(self.fault(number, named)),
        }
    }

    /// Whether the sizes are allowed and the bytes hold the pages.
    ///
    /// # Errors
    ///
    /// The first cause for which they do not. `judge` and `lookup` refuse just these images with [`Number::Geometry`].
    pub fn geometry(&self) -> Result<(), Geometry> {
        self.tree.geometry(self.bytes.len() as u64)
    }

    /// What a lookup's answer says: the entry, that there is none, or the fault.
    fn looked(&self, (number, fields): raw::Answer<7>) -> Result<Option<Entry<'a>>, Fault> {
        let [found, kind, place, length, named @ ..] = fields;
        if number != 0 {
            return Err(self.fault(number, named));
        }
        let kind = if kind == 0 { Kind::Data } else { Kind::Bucket };
        let (place, length) = (place as usize, length as usize);
        Ok((found == 1).then(|| Entry { kind, value: &self.bytes[place..][..length], place }))
    }

    /// The fault that a C function answered about this image, with the page, element and common beginning that it names.
    fn fault(&self, number: u64, [page, element, common]: [u64; 3]) -> Fault {
        let fault = Fault::answered(number, page, element).with_common(common);
        match fault.number {
            Number::Geometry => self.geometry().map_or_else(Fault::from, |()| fault),
            Number::ReachedTwice if self.is_free_id(page, element) => Fault::at_element(fault.number, page, element),
            _ => fault,
        }
    }

    /// Whether a page and element that were refused as used twice name a free id. The judge comes to the ids only where
    /// no block of the tree has the freelist page.
    fn is_free_id(&self, page: u64, element: u64) -> bool {
        page == self.tree.freelist_page && (element > 0 || !tree_has(self, page))
    }
}

impl fmt::Debug for Image<'_> {
    fn fmt(&self, f: &mut fmt::Formatter<'_>) -> fmt::Result {
        f.debug_struct("Image").field("bytes", &self.bytes.len()).field("tree", &self.tree).finish()
    }
}

#[cfg(test)]
mod tests {
    use super::*;

    /// A leaf of accounts, auctions, characters and world, on page 65; halving comes by characters first.
    const EXAMPLE: &[u8] = include_bytes!("../../../examples/shard.db");
    const LEAF: usize = 65 * 1_024;
    const NAMES: [&[u8]; 4] = [b"accounts", b"auctions", b"characters", b"world"];

    /// The example with a byte changed.
    fn changed(at: usize, byte: u8) -> Vec<u8> {
        let mut bytes = EXAMPLE.to_vec();
        bytes[at] = byte;
        bytes
    }

    /// The example's main tree in these bytes.
    fn of(bytes: &[u8]) -> Image<'_> {
        Meta::of(EXAMPLE).unwrap().image(bytes)
    }

    #[test]
    fn quick_does_not_look_at_elements_that_halving_does_not_come_by() {
        let bytes = changed(LEAF + 32, 0xFF);
        let [sound, damaged] = [of(EXAMPLE), of(&bytes)];
        let fault = Fault::at_element(Number::Element, 65, 0);
        for name in NAMES {
            assert_eq!(damaged.lookup(name), Err(fault));
        }
        assert_eq!(damaged.quick(b"accounts"), Err(fault));
        for name in &NAMES[1..] {
            assert_eq!(damaged.quick(name), sound.lookup(name));
        }
    }

    #[test]
    fn quick_does_not_see_keys_out_of_order() {
        let at = LEAF + 32 + 4 * 32;
        assert_eq!(&EXAMPLE[at..at + 8], b"accounts");
        let bytes = changed(at, b'z');
        let [sound, damaged] = [of(EXAMPLE), of(&bytes)];
        for name in NAMES {
            assert_eq!(damaged.lookup(name), Err(Fault::at_element(Number::Order, 65, 1)));
        }
        assert_eq!((damaged.quick(b"accounts"), damaged.quick(b"zccounts")), (Ok(None), Ok(None)));
        for name in &NAMES[1..] {
            assert_eq!(damaged.quick(name), sound.lookup(name));
        }
    }

    #[test]
    fn quick_refuses_numbers_and_headers_as_lookup_does() {
        let Tree { page_size, page_count, root_page, .. } = of(EXAMPLE).tree();
        let most = u64::MAX;
        for root_page in [0, 1, page_count, most] {
            let image = of(EXAMPLE).with_root_page(root_page);
            assert_eq!(image.quick(b"world"), Err(Fault::at_page(Number::PageNumber, root_page)));
        }
        for [page_size, page_count] in [[0, 0], [page_size, 1], [page_size, most], [most, page_count], [1_028, 4]] {
            let image = Image::new(EXAMPLE, Tree { page_size, page_count, root_page, freelist_page: 0 });
            assert_eq!(image.quick(b"world"), Err(image.geometry().unwrap_err().into()));
        }
        for (at, number) in [(0, Number::Header), (8, Number::Header), (16, Number::Table), (24, Number::Header)] {
            let bytes = changed(LEAF + at, 0xFF);
            assert_eq!(of(&bytes).quick(b"world"), Err(Fault::at_page(number, 65)));
        }
        assert_eq!(of(&[]).quick(b""), Err(of(&[]).geometry().unwrap_err().into()));
    }
}
