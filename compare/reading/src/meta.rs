//! "Meta": reading and writing the meta of a page, and FNV-1a (meta.rs).

use crate::layout::{header, put_u64, u32_at, u64_at, META};
use crate::{refusal, Fault};

const START: usize = 32;
const END: usize = 104;
const BASIS: u64 = 14_695_981_039_346_656_037;
const PRIME: u64 = 1_099_511_628_211;

/// The nine fields before the hash.
#[derive(Clone, Copy, Debug, Default, PartialEq, Eq)]
pub struct Meta {
    pub meta_page: u32,
    pub magic: u32,
    pub version: u32,
    pub pagesize: u64,
    pub root_page: u64,
    pub next_int: u64,
    pub num_pages: u64,
    pub freelist_page: u64,
    pub tx_id: u64,
}

/// FNV-1a, 64-bit.
pub fn fnv1a(bytes: &[u8]) -> u64 {
    bytes.iter().fold(BASIS, |hash, byte| (hash ^ u64::from(*byte)).wrapping_mul(PRIME))
}

/// FNV-1a over the fields, each big-endian: 60 bytes.
pub fn hash(meta: &Meta) -> u64 {
    let mut bytes = Vec::new();
    for number in [meta.meta_page, meta.magic, meta.version] {
        bytes.extend(number.to_be_bytes());
    }
    for number in long_fields(meta) {
        bytes.extend(number.to_be_bytes());
    }
    fnv1a(&bytes)
}

/// The fields and the hash of a meta page.
pub fn read(page: &[u8]) -> Result<(Meta, u64), Fault> {
    check(page)?;
    let bytes = &page[START..END];
    let meta = Meta {
        meta_page: u32_at(bytes, 0),
        magic: u32_at(bytes, 4),
        version: u32_at(bytes, 8),
        pagesize: u64_at(bytes, 16),
        root_page: u64_at(bytes, 24),
        next_int: u64_at(bytes, 32),
        num_pages: u64_at(bytes, 40),
        freelist_page: u64_at(bytes, 48),
        tx_id: u64_at(bytes, 56),
    };
    let stored = u64_at(bytes, 64);
    if stored != hash(&meta) {
        return Err(refusal(13));
    }
    Ok((meta, stored))
}

/// Writes the fields with their hash, which it answers.
pub fn write(page: &mut [u8], meta: &Meta) -> Result<u64, Fault> {
    check(page)?;
    let bytes = &mut page[START..END];
    bytes.fill(0);
    bytes[0..4].copy_from_slice(&meta.meta_page.to_le_bytes());
    bytes[4..8].copy_from_slice(&meta.magic.to_le_bytes());
    bytes[8..12].copy_from_slice(&meta.version.to_le_bytes());
    for (i, number) in long_fields(meta).into_iter().enumerate() {
        put_u64(bytes, 16 + 8 * i, number);
    }
    let hash = hash(meta);
    put_u64(bytes, 64, hash);
    Ok(hash)
}

/// The six u64 fields in order.
fn long_fields(meta: &Meta) -> [u64; 6] {
    [meta.pagesize, meta.root_page, meta.next_int, meta.num_pages, meta.freelist_page, meta.tx_id]
}

/// The page long enough, then its type.
fn check(page: &[u8]) -> Result<(), Fault> {
    if page.len() < END {
        return Err(refusal(1));
    }
    (header(page).kind == META).then_some(()).ok_or(refusal(3))
}
