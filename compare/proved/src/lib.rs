//! The proved libraries as a subject of the comparison: each C function in a safe call.

mod raw;

use raw::*;
use subject::{Branch, Leaf, MetaFields, Subject};

/// What libshard.a and libprobe.a answer.
pub struct Proved;

/// Pointer and length of a slice, as two arguments of a call.
macro_rules! call {
    (@ [$function:ident] [$($done:expr),*]) => {
        unsafe { $function($($done),*) }
    };
    (@ $function:tt [$($done:expr),*] in $slice:expr; $($rest:tt)*) => {
        call!(@ $function [$($done,)* $slice.as_ptr(), $slice.len()] $($rest)*)
    };
    (@ $function:tt [$($done:expr),*] out $slice:expr; $($rest:tt)*) => {
        call!(@ $function [$($done,)* $slice.as_mut_ptr(), $slice.len()] $($rest)*)
    };
    (@ $function:tt [$($done:expr),*] of $number:expr; $($rest:tt)*) => {
        call!(@ $function [$($done,)* $number] $($rest)*)
    };
    ($function:ident: $($arguments:tt)*) => {
        call!(@ [$function] [] $($arguments)*)
    };
}

impl Subject for Proved {
    fn name(&self) -> &'static str {
        "proved"
    }

    fn lookup(&self, image: &[u8], p: u64, n: u64, root: u64, key: &[u8], answer: &mut [u8]) -> u64 {
        call!(tyvarmos_lookup: in image; of p; of n; of root; in key; out answer;)
    }

    fn quick(&self, image: &[u8], p: u64, n: u64, root: u64, key: &[u8], answer: &mut [u8]) -> u64 {
        call!(tyvarmos_quick: in image; of p; of n; of root; in key; out answer;)
    }

    fn judge(&self, image: &[u8], p: u64, n: u64, root: u64, freelist: u64, answer: &mut [u8]) -> u64 {
        call!(tyvarmos_judge: in image; of p; of n; of root; of freelist; out answer;)
    }

    fn newest_meta(&self, image: &[u8], p: u64, answer: &mut [u8]) -> u64 {
        call!(tyvarmos_meta: in image; of p; out answer;)
    }

    fn index(&self, block: &[u8], p: u64, key: &[u8], answer: &mut [u8]) -> u64 {
        call!(tyvarmos_index: in block; of p; in key; out answer;)
    }

    fn index_page(&self, block: &[u8], p: u64, index: u64, answer: &mut [u8]) -> u64 {
        call!(tyvarmos_index_page: in block; of p; of index; out answer;)
    }

    fn entry(&self, block: &[u8], p: u64, index: u64, answer: &mut [u8]) -> u64 {
        call!(tyvarmos_entry: in block; of p; of index; out answer;)
    }

    fn size(&self, block: &[u8], p: u64, answer: &mut [u8]) -> u64 {
        call!(tyvarmos_size: in block; of p; out answer;)
    }

    fn new_leaf(&self, p: u64, id: u64, out: &mut [u8], answer: &mut [u8]) -> u64 {
        call!(tyvarmos_new_leaf: of p; of id; out out; out answer;)
    }

    fn new_branch(&self, p: u64, id: u64, key: &[u8], child: u64, out: &mut [u8], answer: &mut [u8]) -> u64 {
        call!(tyvarmos_new_branch: of p; of id; in key; of child; out out; out answer;)
    }

    fn insert(&self, block: &[u8], p: u64, entry: Leaf, out: &mut [u8], answer: &mut [u8]) -> u64 {
        let Leaf { key, kind, value } = entry;
        call!(tyvarmos_insert: in block; of p; in key; of kind; in value; out out; out answer;)
    }

    fn delete(&self, block: &[u8], p: u64, index: u64, out: &mut [u8], answer: &mut [u8]) -> u64 {
        call!(tyvarmos_delete: in block; of p; of index; out out; out answer;)
    }

    fn insert_branch(&self, block: &[u8], p: u64, branch: Branch, out: &mut [u8], answer: &mut [u8]) -> u64 {
        let Branch { original, key, child } = branch;
        let has_original = u64::from(original.is_some());
        let original = original.unwrap_or_default();
        call!(tyvarmos_insert_branch: in block; of p; of has_original; in original; in key; of child; out out;
            out answer;)
    }

    fn split(&self, block: &[u8], p: u64, cuts: &mut [u64], answer: &mut [u8]) -> u64 {
        call!(tyvarmos_split: in block; of p; out cuts; out answer;)
    }

    fn split_write(&self, block: &[u8], p: u64, n: u64, ids: &[u64], out: &mut [u8], answer: &mut [u8]) -> u64 {
        call!(tyvarmos_split_write: in block; of p; of n; in ids; out out; out answer;)
    }

    fn free_new(&self, table: &mut [u64], answer: &mut [u8]) -> u64 {
        call!(tyvarmos_free_new: out table; out answer;)
    }

    fn free_init(&self, table: &mut [u64], n: u64, ids: &[u64], answer: &mut [u8]) -> u64 {
        call!(tyvarmos_free_init: out table; of n; in ids; out answer;)
    }

    fn free_pages(&self, table: &mut [u64], n: u64, first: u64, count: u64, t: u64, answer: &mut [u8]) -> u64 {
        call!(tyvarmos_free_pages: out table; of n; of first; of count; of t; out answer;)
    }

    fn release(&self, table: &mut [u64], n: u64, t: u64, answer: &mut [u8]) -> u64 {
        call!(tyvarmos_release: out table; of n; of t; out answer;)
    }

    fn allocate(&self, table: &mut [u64], n: u64, p: u64, bytes: u64, answer: &mut [u8]) -> u64 {
        call!(tyvarmos_allocate: out table; of n; of p; of bytes; out answer;)
    }

    fn free_list(&self, table: &[u64], n: u64, ids: &mut [u64], answer: &mut [u8]) -> u64 {
        call!(tyvarmos_free_list: in table; of n; out ids; out answer;)
    }

    fn free_size(&self, table: &[u64], n: u64, answer: &mut [u8]) -> u64 {
        call!(tyvarmos_free_size: in table; of n; out answer;)
    }

    fn meta_read(&self, page: &[u8], answer: &mut [u8]) -> u64 {
        call!(tyvarmos_meta_read: in page; out answer;)
    }

    fn meta_write(&self, page: &mut [u8], f: &MetaFields, answer: &mut [u8]) -> u64 {
        call!(tyvarmos_meta_write: out page; of f.meta_page; of f.magic; of f.version; of f.pagesize; of f.root_page;
            of f.next_int; of f.num_pages; of f.freelist_page; of f.tx_id; out answer;)
    }

    fn fnv1a(&self, bytes: &[u8], answer: &mut [u8]) -> u64 {
        call!(tyvarmos_fnv1a: in bytes; out answer;)
    }
}
