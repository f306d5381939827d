//! A file's two meta pages: which can be used, by the proved call, and what the others say, read plainly.

use std::fmt::{self, Display};

use tyvarmos::{Fault, Meta};

use crate::layout::{self, META_END};
use crate::media::Hole;

const BASIS: u64 = 14_695_981_039_346_656_037;
const PRIME: u64 = 1_099_511_628_211;

/// Both meta pages of a file.
pub struct Metas {
    found: Result<tyvarmos::Metas, Fault>,
    pub pages: [Page; 2],
}

/// A meta page as it lies there.
#[derive(Default)]
pub struct Page {
    /// Where it starts, if the page size is known.
    pub start: Option<u64>,
    /// Why it could not be read.
    pub unread: Option<String>,
    /// What it says, right or wrong.
    pub fields: Option<Fields>,
}

/// The fields of a meta page, whatever they are worth.
#[derive(Clone, Copy, Debug, PartialEq, Eq)]
pub struct Fields {
    pub kind: u8,
    pub page_size: u64,
    pub root_page: u64,
    pub next_int: u64,
    pub page_count: u64,
    pub freelist_page: u64,
    pub tx_id: u64,
    /// The hash that stands there, and the one that the fields before it have.
    pub hash: u64,
    pub hash_of_fields: u64,
}

impl Metas {
    /// The meta pages in a file's first bytes, for a page size that is given or to be found; where none is found, meta
    /// page 1 is looked for where page 0 says, though its hash is wrong.
    pub fn of(head: &[u8], holes: &[Hole], page_size: Option<u64>) -> Metas {
        let named = || Fields::at(head, 0).filter(|fields| fields.kind == layout::META).map(|fields| fields.page_size);
        let found = match page_size {
            Some(page_size) => Meta::both_with_page_size(head, page_size),
            None => Meta::both(head).or_else(|fault| {
                let both = named().and_then(|page_size| Meta::both_with_page_size(head, page_size).ok());
                both.ok_or(fault)
            }),
        };
        let second = found.ok().map(|metas| metas.page_size);
        let pages = [Some(0), second].map(|start| start.map_or(Page::default(), |start| Page::at(head, holes, start)));
        Metas { found, pages }
    }

    /// The meta to go by: the newer one, or the one asked for.
    pub fn chosen(&self, asked: Option<u64>) -> Result<Meta, Fault> {
        match asked {
            None => self.found?.newest,
            Some(page) => self.found?.pages[page as usize],
        }
    }

    /// Why a meta page cannot be used, or its fields.
    pub fn usable(&self, page: usize) -> Result<Meta, String> {
        match (&self.pages[page].unread, &self.found) {
            (Some(why), _) => Err(format!("it could not be read: {why}")),
            (None, Ok(metas)) => metas.pages[page].map_err(|fault| fault.to_string()),
            (None, Err(fault)) if page == 0 => Err(fault.to_string()),
            (None, Err(_)) => Err("no page size is known, so that it cannot be looked for".to_string()),
        }
    }

    /// The options that say what the later of two meta pages says, right or wrong.
    pub fn as_options(&self) -> Option<String> {
        let told = |page: usize| {
            self.pages[page].fields.filter(|fields| fields.kind == layout::META).map(|fields| (page, fields))
        };
        let (page, fields) = [told(0), told(1)].into_iter().flatten().max_by_key(|(_, fields)| fields.tx_id)?;
        let Fields { page_size, page_count, root_page, freelist_page, .. } = fields;
        let sizes = format!("--page-size {page_size} --page-count {page_count}");
        Some(format!("meta page {page} says {sizes} --root {root_page} --freelist {freelist_page}"))
    }

    /// The pages that could not be read.
    pub fn unread(&self) -> impl Iterator<Item = u64> + '_ {
        (0..2).filter(|page| self.pages[*page as usize].unread.is_some())
    }

    /// What is to be said of the other meta page where one is gone by: that it cannot be used, or is the newer one.
    pub fn warning(&self, used: &Meta) -> Option<String> {
        let (page, other, tx_id) = (used.meta_page, 1 - used.meta_page, used.tx_id);
        match self.usable(other as usize) {
            Ok(meta) if meta.tx_id > tx_id => {
                let newer = meta.tx_id;
                Some(format!("an older transaction is read, {tx_id}: meta page {other} has {newer}"))
            }
            Ok(_) => None,
            Err(why) => Some(match self.pages[other as usize].told_tx_id() {
                Some(newer) if newer > tx_id => format!(
                    "an older transaction is read, {tx_id}, from meta page {page}: \
                     meta page {other}, which names {newer}, cannot be used: {why}"
                ),
                Some(older) if older < tx_id => {
                    format!("meta page {other}, which names the older transaction {older}, cannot be used: {why}")
                }
                _ => format!(
                    "meta page {other} cannot be used: {why}; transaction {tx_id}, \
                     read from meta page {page}, may not be the last"
                ),
            }),
        }
    }
}

impl Page {
    /// The meta page that starts here.
    fn at(head: &[u8], holes: &[Hole], start: u64) -> Page {
        let hole = holes.iter().find(|hole| hole.start < start + META_END as u64 && start < hole.end);
        let unread = hole.map(|hole| format!("from byte {} on: {}", hole.start, hole.why));
        let fields = if unread.is_none() { Fields::at(head, start) } else { None };
        Page { start: Some(start), unread, fields }
    }

    /// The transaction that it names, right or wrong, if its type is that of a meta page.
    fn told_tx_id(&self) -> Option<u64> {
        self.fields.filter(|fields| fields.kind == layout::META).map(|fields| fields.tx_id)
    }
}

impl Fields {
    /// The fields of the meta page that starts here.
    fn at(bytes: &[u8], start: u64) -> Option<Fields> {
        let number = |at| layout::number(bytes, start.checked_add(at)?);
        Some(Fields {
            kind: (number(8)? & 0xFF) as u8,
            page_size: number(48)?,
            root_page: number(56)?,
            next_int: number(64)?,
            page_count: number(72)?,
            freelist_page: number(80)?,
            tx_id: number(88)?,
            hash: number(96)?,
            hash_of_fields: hash_of_fields(bytes.get(start as usize + 32..start as usize + 96)?),
        })
    }
}

impl Display for Fields {
    fn fmt(&self, f: &mut fmt::Formatter) -> fmt::Result {
        let Fields { kind, page_size, root_page, next_int, page_count, freelist_page, tx_id, hash, hash_of_fields } =
            self;
        write!(f, "type {kind}, transaction {tx_id}, root page {root_page}, freelist page {freelist_page}, ")?;
        write!(f, "{page_count} pages of {page_size} bytes, next number {next_int}, hash {hash:016x}")?;
        if hash != hash_of_fields {
            write!(f, " where its fields have {hash_of_fields:016x}")?;
        }
        Ok(())
    }
}

/// FNV-1a over the fields, three of 4 bytes, then six of 8 after a gap of 4, each with its highest byte first.
fn hash_of_fields(fields: &[u8]) -> u64 {
    let (short, long) = (fields[..12].chunks(4), fields[16..].chunks(8));
    let bytes = short.chain(long).flat_map(|field| field.iter().rev());
    bytes.fold(BASIS, |hash, byte| (hash ^ u64::from(*byte)).wrapping_mul(PRIME))
}

#[cfg(test)]
mod tests {
    use super::*;

    const EXAMPLE: &[u8] = include_bytes!("../../../../../examples/shard.db");

    #[test]
    fn the_example_has_two_metas_with_their_hashes() {
        let metas = Metas::of(EXAMPLE, &[], None);
        for (page, tx_id) in [(0, 9), (1, 10)] {
            let fields = metas.pages[page].fields.unwrap();
            assert_eq!((fields.tx_id, fields.hash), (tx_id, fields.hash_of_fields));
            assert_eq!(metas.usable(page).unwrap().tx_id, tx_id);
        }
        assert_eq!(metas.warning(&metas.chosen(None).unwrap()), None);
        let older = metas.warning(&metas.chosen(Some(0)).unwrap()).unwrap();
        assert_eq!(older, "an older transaction is read, 9: meta page 1 has 10");
    }

    #[test]
    fn a_meta_page_that_could_not_be_read_is_not_called_damaged() {
        let mut bytes = EXAMPLE.to_vec();
        bytes[1_024..1_536].fill(0);
        let hole = Hole { start: 1_024, end: 1_536, why: "bad disk".to_string() };
        let metas = Metas::of(&bytes, &[hole], None);
        assert_eq!(metas.unread().collect::<Vec<_>>(), [1]);
        let warning = metas.warning(&metas.chosen(None).unwrap()).unwrap();
        assert!(warning.starts_with("meta page 1 cannot be used: it could not be read: from byte 1024 on: bad disk;"));
        assert!(warning.ends_with("transaction 9, read from meta page 0, may not be the last"));
    }
}
