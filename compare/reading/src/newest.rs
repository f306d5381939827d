//! The newest meta of a file: what `tyvarmos_meta` is to answer (docs/PROMISES.md, "meta"), which is the crate's `DB::meta` for files of 0.11.

use crate::layout::check_page_size;
use crate::meta::{read, Meta};
use crate::{refusal, Fault};

/// The page that the newest meta was taken from, and the meta; a page size of 0 is found.
pub fn newest(image: &[u8], p: u64) -> Result<(u64, Meta), Fault> {
    let p = if p == 0 { page_size(image)? } else { p };
    check_page_size(p)?;
    if (image.len() as u64) < 2 * p {
        return Err(refusal(1));
    }
    let both = [(0, at(image, 0)), (1, at(image, p))];
    let usable = both.into_iter().filter_map(|(page, meta)| Some((page, meta.ok()?)));
    usable.filter(|(_, meta)| meta.pagesize == p).max_by_key(|(_, meta)| meta.tx_id).ok_or(none(image))
}

/// The meta at a place.
fn at(image: &[u8], place: u64) -> Result<Meta, Fault> {
    read(image.get(place as usize..).unwrap_or_default()).map(|(meta, _)| meta)
}

/// What page 0 gives where no meta can be used: its own refusal, or 11 where it reads.
fn none(image: &[u8]) -> Fault {
    at(image, 0).err().unwrap_or(refusal(11))
}

/// The page size that the first meta names, or the lowest one at which a meta of that very size lies.
fn page_size(image: &[u8]) -> Result<u64, Fault> {
    if let Ok(meta) = at(image, 0) {
        if check_page_size(meta.pagesize).is_ok() {
            return Ok(meta.pagesize);
        }
    }
    let names_itself = |p: &u64| at(image, *p).is_ok_and(|meta| meta.pagesize == *p);
    (1_024..=65_536).step_by(8).find(names_itself).ok_or(none(image))
}
