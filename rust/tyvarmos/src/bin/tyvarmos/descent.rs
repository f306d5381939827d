//! Down from a tree to one of its entries, or to the tree of one of its buckets.

use tyvarmos::Entry;

use crate::file::{Read, Source};
use crate::keys;
use crate::meant::Meant;
use crate::refusal::Refusal;

/// Why a bucket's tree is not to be had.
pub enum Lost {
    Absent(String),
    Refused(Box<Refusal>),
}

/// The entry with this key in a tree, none where it is absent.
pub fn to_entry<'a>(
    meant: &Meant,
    source: &Source,
    read: &'a Read,
    key: &[u8],
) -> Result<Option<Entry<'a>>, Box<Refusal>> {
    let image = meant.image(&read.bytes);
    match image.lookup(key) {
        Err(fault) => Err(Box::new(Refusal::looked(meant, source, read, key, fault))),
        Ok(entry) => match Refusal::of_passed(&image, read, Some(key)) {
            Some(refusal) => Err(Box::new(refusal)),
            None => Ok(entry),
        },
    }
}

/// The tree of the bucket with this name in a tree.
pub fn to_bucket(meant: &Meant, source: &Source, read: &Read, name: &[u8]) -> Result<Meant, Lost> {
    let (shown, tree) = (keys::shown(name), meant.name());
    let Some(entry) = to_entry(meant, source, read, name).map_err(Lost::Refused)? else {
        return Err(Lost::Absent(format!("there is no bucket {shown} in the {tree}")));
    };
    meant.within(name, &entry).ok_or(Lost::Absent(format!("{shown} in the {tree} is a value, not a bucket")))
}
