//! The meta of a page: its hash, reading, writing, and the layout of the crate's struct.

use std::hash::Hasher;
use std::mem::{offset_of, size_of};

use super::aligned::Aligned;
use super::caught;
use crate::bucket::BucketMeta;
use crate::meta::Meta;

/// The fields before the hash.
#[derive(Clone, Copy, Debug, Default, PartialEq, Eq)]
pub struct Fields {
    pub meta_page: u32,
    pub magic: u32,
    pub version: u32,
    pub pagesize: u64,
    pub root_page: u64,
    pub next_int: u64,
    pub num_pages: u64,
    pub freelist_page: u64,
    pub tx_id: u64,
}

/// The crate's meta with these fields and the hash it works out for them.
pub(super) fn meta_of(fields: &Fields) -> Meta {
    let mut meta = Meta {
        meta_page: fields.meta_page,
        magic: fields.magic,
        version: fields.version,
        pagesize: fields.pagesize,
        root: BucketMeta { root_page: fields.root_page, next_int: fields.next_int },
        num_pages: fields.num_pages,
        freelist_page: fields.freelist_page,
        tx_id: fields.tx_id,
        hash: 0,
    };
    meta.hash = meta.hash_self();
    meta
}

/// The fields of the crate's meta.
pub(super) fn fields_of(meta: &Meta) -> Fields {
    Fields {
        meta_page: meta.meta_page,
        magic: meta.magic,
        version: meta.version,
        pagesize: meta.pagesize,
        root_page: meta.root.root_page,
        next_int: meta.root.next_int,
        num_pages: meta.num_pages,
        freelist_page: meta.freelist_page,
        tx_id: meta.tx_id,
    }
}

/// Writes each field and the hash through `meta_mut`, as a commit does; nothing where it panics.
pub fn write(page: &[u8], fields: &Fields) -> Option<(Vec<u8>, u64)> {
    let mut buffer = Aligned::copy(page);
    let hash = caught(|| {
        let meta = buffer.page_mut().meta_mut();
        meta.meta_page = fields.meta_page;
        meta.magic = fields.magic;
        meta.version = fields.version;
        meta.pagesize = fields.pagesize;
        meta.root = BucketMeta { root_page: fields.root_page, next_int: fields.next_int };
        meta.num_pages = fields.num_pages;
        meta.freelist_page = fields.freelist_page;
        meta.tx_id = fields.tx_id;
        meta.hash = meta.hash_self();
        meta.hash
    })?;
    Some((buffer.bytes()[..page.len()].to_vec(), hash))
}

/// The fields, the stored hash and whether the crate calls the meta valid; nothing where it panics.
pub fn read(page: &[u8]) -> Option<(Fields, u64, bool)> {
    let buffer = Aligned::copy(page);
    caught(|| {
        let meta = buffer.page().meta();
        (fields_of(meta), meta.hash, meta.valid())
    })
}

/// The crate's hasher over plain bytes.
pub fn fnv1a(bytes: &[u8]) -> u64 {
    let mut hasher = fnv::FnvHasher::default();
    hasher.write(bytes);
    hasher.finish()
}

/// The bytes of a bucket entry's value.
pub fn bucket_value(root_page: u64, next_int: u64) -> Vec<u8> {
    BucketMeta { root_page, next_int }.as_ref().to_vec()
}

/// Offsets of the meta's ten fields (root in its two) and its size.
pub fn layout() -> [usize; 11] {
    let root = offset_of!(Meta, root);
    [
        offset_of!(Meta, meta_page),
        offset_of!(Meta, magic),
        offset_of!(Meta, version),
        offset_of!(Meta, pagesize),
        root + offset_of!(BucketMeta, root_page),
        root + offset_of!(BucketMeta, next_int),
        offset_of!(Meta, num_pages),
        offset_of!(Meta, freelist_page),
        offset_of!(Meta, tx_id),
        offset_of!(Meta, hash),
        size_of::<Meta>(),
    ]
}
