//! An image that the judge passed.

use crate::{Entry, Image};

/// An image that the judge passed: no lookup in it refuses or misses. Only [`Image::judge`] makes one.
///
/// What was judged is one tree and the freelist page. A bucket's entry is part of the tree that it stands in, the
/// bucket's own tree is not: [`Sound::bucket`] gives that as an [`Image`], to be judged by itself.
///
/// It borrows the bytes, so that they cannot change while it lives:
///
/// ```compile_fail,E0506
/// # let mut bytes = std::fs::read("../../examples/shard.db").unwrap();
/// let sound = tyvarmos::Image::of_file(&bytes).unwrap().judge().unwrap();
/// bytes[2_000] = 0;
/// sound.get(b"characters");
/// ```
#[derive(Clone, Copy, Debug)]
pub struct Sound<'a> {
    pub(crate) image: Image<'a>,
    pub(crate) entries: u64,
    pub(crate) pages: u64,
}

impl<'a> Sound<'a> {
    /// The entry with this key, or none where no leaf of the tree holds it.
    ///
    /// Of each page on the way it looks at the header and at the elements that halving comes by, at most as many as the
    /// page's count of elements has binary digits, and at nothing else: the judge has seen to the rest. On what was judged
    /// the answer is proved to be that of [`Image::lookup`], for every key.
    ///
    /// # Panics
    ///
    /// Only where the bytes were changed behind the borrow, as another process can change a mapped file. Of such a change
    /// it sees no more than what it looks at; [`Image::lookup`] sees more.
    #[must_use]
    pub fn get(&self, key: &[u8]) -> Option<Entry<'a>> {
        self.image.quick(key).expect("the bytes of an image that was judged sound have changed")
    }

    /// The tree of the bucket with this name, not yet judged, or none where there is no such bucket.
    ///
    /// # Panics
    ///
    /// As [`Sound::get`].
    #[must_use]
    pub fn bucket(&self, name: &[u8]) -> Option<Image<'a>> {
        let bucket = self.get(name)?.bucket()?;
        Some(self.image.with_root_page(bucket.root_page))
    }

    /// How many leaf entries the tree has, its bucket entries included, the entries within those buckets not.
    #[must_use]
    pub const fn entries(&self) -> u64 {
        self.entries
    }

    /// How many pages the blocks of the tree and of the freelist have, overflow pages included. No two share one.
    #[must_use]
    pub const fn pages(&self) -> u64 {
        self.pages
    }

    /// The image that was judged.
    #[must_use]
    pub const fn image(&self) -> Image<'a> {
        self.image
    }
}
