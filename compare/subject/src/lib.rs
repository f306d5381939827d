//! What is compared: the calls of include/tyvarmos.h and docs/PROBE.md, by whoever answers them.

/// A number given back and the fields of the answer buffer.
#[derive(Clone, Copy, Debug, PartialEq, Eq)]
pub struct Answer<const F: usize> {
    pub number: u64,
    pub fields: [u64; F],
}

/// Calls with room for exactly F fields and reads them.
pub fn ask<const F: usize>(call: impl FnOnce(&mut [u8]) -> u64) -> Answer<F> {
    let mut bytes = vec![0xA5; F * 8];
    let number = call(&mut bytes);
    let field = |i: usize| u64::from_le_bytes(bytes[i * 8..i * 8 + 8].try_into().unwrap());
    Answer { number, fields: std::array::from_fn(field) }
}

/// The fields of a meta before its hash.
#[derive(Clone, Copy, Debug, Default, PartialEq, Eq)]
pub struct MetaFields {
    pub meta_page: u32,
    pub magic: u32,
    pub version: u32,
    pub pagesize: u64,
    pub root_page: u64,
    pub next_int: u64,
    pub num_pages: u64,
    pub freelist_page: u64,
    pub tx_id: u64,
}

/// Every call writes its fields into `answer` and returns the number. `p` is the page size, `n` the page count.
pub trait Subject {
    fn name(&self) -> &'static str;

    /// Fields: found, kind, place, length, page, element, common.
    fn lookup(&self, image: &[u8], p: u64, n: u64, root: u64, key: &[u8], answer: &mut [u8]) -> u64;
    /// Fields: found, kind, place, length, page, element, common.
    fn quick(&self, image: &[u8], p: u64, n: u64, root: u64, key: &[u8], answer: &mut [u8]) -> u64;
    /// Fields: entries, pages, page, element, common.
    fn judge(&self, image: &[u8], p: u64, n: u64, root: u64, freelist: u64, answer: &mut [u8]) -> u64;

    /// Fields: the page taken, pagesize, root_page, next_int, num_pages, freelist_page, tx_id.
    fn newest_meta(&self, image: &[u8], p: u64, answer: &mut [u8]) -> u64;

    /// Fields: index, found, page, element, common.
    fn index(&self, block: &[u8], p: u64, key: &[u8], answer: &mut [u8]) -> u64;
    /// Fields: page number, page, element, common.
    fn index_page(&self, block: &[u8], p: u64, index: u64, answer: &mut [u8]) -> u64;
    /// Fields: held; kind, key place, key length, value place, value length; page, element, common.
    fn entry(&self, block: &[u8], p: u64, index: u64, answer: &mut [u8]) -> u64;
    /// Fields: size, pages needed, merging wanted, page, element, common.
    fn size(&self, block: &[u8], p: u64, answer: &mut [u8]) -> u64;

    /// Fields: bytes written, page, element, common.
    fn new_leaf(&self, p: u64, id: u64, out: &mut [u8], answer: &mut [u8]) -> u64;
    /// Fields: bytes written, page, element, common.
    fn new_branch(&self, p: u64, id: u64, key: &[u8], child: u64, out: &mut [u8], answer: &mut [u8]) -> u64;
    /// Fields: bytes written, page, element, common.
    fn insert(&self, block: &[u8], p: u64, entry: Leaf, out: &mut [u8], answer: &mut [u8]) -> u64;
    /// Fields: bytes written; kind, key place, key length, value place, value length of what was removed; page, element, common.
    fn delete(&self, block: &[u8], p: u64, index: u64, out: &mut [u8], answer: &mut [u8]) -> u64;
    /// Fields: bytes written, page, element, common.
    fn insert_branch(&self, block: &[u8], p: u64, branch: Branch, out: &mut [u8], answer: &mut [u8]) -> u64;
    /// Fields: cuts made, page, element, common.
    fn split(&self, block: &[u8], p: u64, cuts: &mut [u64], answer: &mut [u8]) -> u64;
    /// Fields: bytes written, pieces, page, element, common.
    fn split_write(&self, block: &[u8], p: u64, n: u64, ids: &[u64], out: &mut [u8], answer: &mut [u8]) -> u64;

    fn free_new(&self, table: &mut [u64], answer: &mut [u8]) -> u64;
    fn free_init(&self, table: &mut [u64], n: u64, ids: &[u64], answer: &mut [u8]) -> u64;
    fn free_pages(&self, table: &mut [u64], n: u64, first: u64, count: u64, t: u64, answer: &mut [u8]) -> u64;
    fn release(&self, table: &mut [u64], n: u64, t: u64, answer: &mut [u8]) -> u64;
    /// Fields: start, N after.
    fn allocate(&self, table: &mut [u64], n: u64, p: u64, bytes: u64, answer: &mut [u8]) -> u64;
    /// Fields: ids written.
    fn free_list(&self, table: &[u64], n: u64, ids: &mut [u64], answer: &mut [u8]) -> u64;
    /// Fields: size.
    fn free_size(&self, table: &[u64], n: u64, answer: &mut [u8]) -> u64;

    /// Fields: the nine before the hash, the hash.
    fn meta_read(&self, page: &[u8], answer: &mut [u8]) -> u64;
    /// Fields: hash.
    fn meta_write(&self, page: &mut [u8], fields: &MetaFields, answer: &mut [u8]) -> u64;
    /// Fields: hash.
    fn fnv1a(&self, bytes: &[u8], answer: &mut [u8]) -> u64;
}

/// The two lookups, which have the same arguments and fields.
#[derive(Clone, Copy, Debug, PartialEq, Eq)]
pub enum Lookup {
    Full,
    Quick,
}

impl Lookup {
    pub const BOTH: [Lookup; 2] = [Lookup::Full, Lookup::Quick];

    /// The call's name.
    pub fn name(self) -> &'static str {
        match self {
            Lookup::Full => "lookup",
            Lookup::Quick => "quick",
        }
    }

    /// What a subject answers to it. The numbers are the page size, the page count and the root.
    pub fn by(self, s: &dyn Subject, image: &[u8], (p, n, root): (u64, u64, u64), key: &[u8]) -> Answer<7> {
        ask(|answer| match self {
            Lookup::Full => s.lookup(image, p, n, root, key, answer),
            Lookup::Quick => s.quick(image, p, n, root, key, answer),
        })
    }
}

/// A leaf entry to insert.
#[derive(Clone, Copy, Debug)]
pub struct Leaf<'a> {
    pub key: &'a [u8],
    pub kind: u64,
    pub value: &'a [u8],
}

/// A branch entry to insert, in place of the one with the original key where there is one.
#[derive(Clone, Copy, Debug)]
pub struct Branch<'a> {
    pub original: Option<&'a [u8]>,
    pub key: &'a [u8],
    pub child: u64,
}
