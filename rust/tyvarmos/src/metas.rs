//! A file's two meta pages, each by itself.

use crate::{Fault, Geometry, Meta};

/// Both meta pages of a file, and the one that is read.
///
/// jammdb writes the meta of each transaction on the page that does not hold the last one's. So of a file whose meta
/// pages can both be used, the newer is known. Where only one can be used, the other held the transaction before it or
/// the one after it, and nothing in the file tells which: what is read may be the state before the last transaction.
///
/// ```
/// # fn main() -> Result<(), Box<dyn std::error::Error>> {
/// use tyvarmos::{Meta, Number};
///
/// let mut bytes = std::fs::read("../../examples/shard.db")?;
/// assert_eq!(Meta::both(&bytes)?.unusable(), None);
///
/// bytes[1_024 + 40] ^= 1;
/// let metas = Meta::both(&bytes)?;
/// assert_eq!(metas.newest?.meta_page, 0);
/// let (page, fault) = metas.unusable().expect("meta page 1 is damaged");
/// assert_eq!((page, fault.number), (1, Number::Hash));
/// # Ok(())
/// # }
/// ```
#[derive(Clone, Copy, Debug, PartialEq, Eq, Hash)]
#[non_exhaustive]
pub struct Metas {
    /// The page size, given or found.
    pub page_size: u64,
    /// Meta page 0 and meta page 1: the fields, or why it cannot be used.
    pub pages: [Result<Meta, Fault>; 2],
    /// The newer of those that can be used, as [`Meta::of`] answers it, or why the file has none.
    pub newest: Result<Meta, Fault>,
}

impl Metas {
    /// Two pages of the greatest size.
    pub(crate) const MOST_BYTES: usize = 131_072;

    /// The meta page that cannot be used while the other one can, and why: the file may be read as an older transaction
    /// left it.
    #[must_use]
    pub fn unusable(&self) -> Option<(u64, Fault)> {
        match self.pages {
            [Ok(_), Err(fault)] => Some((1, fault)),
            [Err(fault), Ok(_)] => Some((0, fault)),
            _ => None,
        }
    }

    /// The meta pages at a page size that is allowed.
    pub(crate) fn read(bytes: &[u8], page_size: u64) -> Metas {
        let pages = [0, 1].map(|page| alone(bytes, page_size, page));
        Metas { page_size, pages, newest: Meta::read(bytes, page_size) }
    }
}

/// One meta page as the proved code reads it where the other is all zeros.
fn alone(bytes: &[u8], page_size: u64, page: u64) -> Result<Meta, Fault> {
    let size = page_size as usize;
    let start = page as usize * size;
    let Some(own) = bytes.get(start..start + size) else {
        let held = bytes.len() as u64;
        return Err(Geometry::TooFewBytes { held, page_size, page_count: 2 }.into());
    };
    let lent = [own, &vec![0; size]].concat();
    Meta::read(&lent, page_size).map(|meta| Meta { meta_page: page, ..meta })
}
