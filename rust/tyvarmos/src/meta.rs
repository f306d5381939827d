//! What a file says about itself.

use crate::geometry::META_BYTES;
use crate::{raw, Fault, Geometry, Image, Metas, Number, Tree};

const PAGE_SIZE_AT: usize = 48;

/// The fields of a meta page whose hash is right.
///
/// ```
/// # fn main() -> Result<(), Box<dyn std::error::Error>> {
/// let mut bytes = std::fs::read("../../examples/shard.db")?;
/// let meta = tyvarmos::Meta::of(&bytes)?;
/// assert_eq!((meta.page_size, meta.meta_page), (1_024, 1));
///
/// bytes[1_024 + 40] ^= 1;
/// let older = tyvarmos::Meta::of(&bytes)?;
/// assert_eq!((older.meta_page, older.tx_id), (0, meta.tx_id - 1));
/// # Ok(())
/// # }
/// ```
#[derive(Clone, Copy, Debug, PartialEq, Eq, Hash)]
#[non_exhaustive]
pub struct Meta {
    /// The page that these fields were taken from, 0 or 1.
    pub meta_page: u64,
    /// How many bytes a page has.
    pub page_size: u64,
    /// How many pages the file has in use.
    pub page_count: u64,
    /// The page at which the main tree starts.
    pub root_page: u64,
    /// The page at which the freelist starts.
    pub freelist_page: u64,
    /// The next number that the main tree would give out.
    pub next_int: u64,
    /// The transaction that wrote the meta page.
    pub tx_id: u64,
}

impl Meta {
    /// The newer meta of a file whose page size is not known. At most the first 131,072 bytes are read.
    ///
    /// # Errors
    ///
    /// No meta page can be used. The number is meta page 0's: [`Number::Header`] for another type, [`Number::Hash`] for
    /// a wrong hash, [`Number::Argument`] for a page size that this version does not take, [`Number::Geometry`] for too
    /// few bytes.
    pub fn of(bytes: &[u8]) -> Result<Meta, Fault> {
        Meta::read(bytes, 0)
    }

    /// The newer meta of a file with this page size.
    ///
    /// # Errors
    ///
    /// As [`Meta::of`], but that [`Number::Argument`] is for a meta page of another page size than the one given. A page
    /// size given that this version does not take is [`Number::Geometry`].
    pub fn with_page_size(bytes: &[u8], page_size: u64) -> Result<Meta, Fault> {
        match page_size {
            0 => Err(Geometry::PageSize { page_size }.into()),
            _ => Meta::read(bytes, page_size),
        }
    }

    /// Both meta pages of a file whose page size is not known.
    ///
    /// # Errors
    ///
    /// No page size can be found. The fault is meta page 0's, and where meta page 1 would be is not known.
    pub fn both(bytes: &[u8]) -> Result<Metas, Fault> {
        match Meta::of(bytes) {
            Ok(meta) => Ok(Metas::read(bytes, meta.page_size)),
            Err(Fault { geometry: Some(Geometry::TooFewBytes { page_size, .. }), .. }) => {
                Ok(Metas::read(bytes, page_size))
            }
            Err(fault) => Err(fault),
        }
    }

    /// Both meta pages of a file with this page size.
    ///
    /// # Errors
    ///
    /// [`Number::Geometry`] for a page size that this version does not take.
    pub fn both_with_page_size(bytes: &[u8], page_size: u64) -> Result<Metas, Fault> {
        match Meta::with_page_size(bytes, page_size) {
            Err(fault @ Fault { geometry: Some(Geometry::PageSize { .. }), .. }) => Err(fault),
            _ => Ok(Metas::read(bytes, page_size)),
        }
    }

    /// The main tree that this meta names, in the file's bytes.
    #[must_use]
    pub fn image<'a>(&self, bytes: &'a [u8]) -> Image<'a> {
        Image::new(bytes, Tree::from(*self))
    }

    /// The meta as the proved code chooses it, 0 standing for a page size that is to be found.
    pub(crate) fn read(bytes: &[u8], page_size: u64) -> Result<Meta, Fault> {
        let (number, fields) = raw::meta(bytes, page_size);
        if number != 0 {
            return Err(fault(bytes, page_size, Number::from(number)));
        }
        let [meta_page, page_size, root_page, next_int, page_count, freelist_page, tx_id] = fields;
        Ok(Meta { meta_page, page_size, page_count, root_page, freelist_page, next_int, tx_id })
    }
}

/// The fault with this number, and with its sizes where it is about them.
fn fault(bytes: &[u8], page_size: u64, number: Number) -> Fault {
    let held = bytes.len() as u64;
    let geometry = match number {
        Number::Geometry if page_size > 0 => Geometry::check(held, page_size, 2).err(),
        Number::Geometry if held < META_BYTES => Some(Geometry::NoMeta { held }),
        Number::Geometry => size_of_short(bytes).and_then(|page_size| Geometry::check(held, page_size, 2).err()),
        Number::Argument if page_size == 0 => named_size(bytes).map(|page_size| Geometry::PageSize { page_size }),
        _ => None,
    };
    Fault { geometry, ..Fault::new(number) }
}

/// The page size of a file too short for two pages of it, found by the proved code with zeros after the bytes.
fn size_of_short(bytes: &[u8]) -> Option<u64> {
    let mut padded = vec![0; Metas::MOST_BYTES];
    padded.get_mut(..bytes.len())?.copy_from_slice(bytes);
    Meta::read(&padded, 0).ok().map(|meta| meta.page_size)
}

/// The page size that meta page 0 names. The proved code has found its hash right, and the size none that it takes.
fn named_size(bytes: &[u8]) -> Option<u64> {
    let (size, _) = bytes.get(PAGE_SIZE_AT..)?.split_first_chunk()?;
    Some(u64::from_le_bytes(*size))
}
