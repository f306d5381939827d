//! What a lookup finds.

/// What an entry's value is.
#[derive(Clone, Copy, Debug, PartialEq, Eq, Hash)]
pub enum Kind {
    /// Bytes that a caller put there.
    Data,
    /// 16 bytes about a tree of its own.
    Bucket,
}

/// A leaf entry found in an image.
#[derive(Clone, Copy, Debug, PartialEq, Eq, Hash)]
#[non_exhaustive]
pub struct Entry<'a> {
    /// What the value is.
    pub kind: Kind,
    /// The value: a part of the image, not a copy.
    pub value: &'a [u8],
    /// Where in the image the value starts.
    pub place: usize,
}

/// The value of a bucket entry.
#[derive(Clone, Copy, Debug, PartialEq, Eq, Hash)]
#[non_exhaustive]
pub struct Bucket {
    /// The page at which the bucket's tree starts.
    pub root_page: u64,
    /// The next number that the bucket would give out.
    pub next_int: u64,
}

impl Entry<'_> {
    /// The bucket, where the entry is one.
    #[must_use]
    pub fn bucket(&self) -> Option<Bucket> {
        let (root_page, rest) = self.value.split_first_chunk()?;
        let next_int = rest.try_into().ok()?;
        let bucket = Bucket { root_page: u64::from_le_bytes(*root_page), next_int: u64::from_le_bytes(next_int) };
        (self.kind == Kind::Bucket).then_some(bucket)
    }
}
