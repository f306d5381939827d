//! A small sound image: three levels, an overflow block, a bucket entry, two free pages, two meta pages.

use reading::block::Entry;
use reading::layout::put_u64;
use reading::meta::{self, Meta};
use reading::pack::{pack, Node};
use tyvarmos::{Image, Tree};

pub const P: u64 = 1_024;
pub const N: u64 = 12;
pub const ROOT: u64 = 3;
pub const FREELIST: u64 = 2;
pub const FREE: [u64; 2] = [9, 11];

/// The leaves: page, and each entry's kind and key. Values are made from keys.
const LEAVES: [(u64, &[(u64, &str)]); 4] = [
    (4, &[(0, "ab"), (0, "abc"), (0, "b")]),
    (5, &[(0, "d"), (0, "long"), (0, "m")]),
    (8, &[(0, "q"), (1, "quay")]),
    (10, &[(0, "s"), (0, "t"), (0, "tt"), (0, "u")]),
];

/// The branches: page, and each child's separator and page.
const BRANCHES: [(u64, &[(&str, u64)]); 2] = [(3, &[("a", 4), ("c", 5), ("p", 7)]), (7, &[("q", 8), ("r", 10)])];

/// Keys of the image and others: below, between and above them.
pub const KEYS: [&str; 18] =
    ["ab", "abc", "b", "d", "long", "m", "q", "quay", "s", "t", "tt", "u", "", "a", "c", "n", "qu", "zz"];

/// The image's bytes.
pub fn image() -> Vec<u8> {
    let mut image = vec![0; (N * P) as usize];
    for (page, entries) in LEAVES {
        let values: Vec<Vec<u8>> = entries.iter().map(|(kind, key)| value(*kind, key)).collect();
        let entry = |((kind, key), value): (&(u64, &'static str), _)| Entry { tag: *kind, key: key.as_bytes(), value };
        let entries = entries.iter().zip(values.iter().map(Vec::as_slice)).map(entry).collect();
        put_block(&mut image, &Node { id: page, leaf: true, entries });
    }
    for (page, children) in BRANCHES {
        let entry = |(key, child): &(&'static str, u64)| Entry { tag: *child, key: key.as_bytes(), value: &[] };
        put_block(&mut image, &Node { id: page, leaf: false, entries: children.iter().map(entry).collect() });
    }
    let at = (FREELIST * P) as usize;
    put_header(&mut image[at..], FREELIST, 4, FREE.len() as u64);
    for (i, id) in FREE.iter().enumerate() {
        put_u64(&mut image[at..], 32 + 8 * i, *id);
    }
    put_meta(&mut image, 0, P, N, 5);
    put_meta(&mut image, 1, P, N, 6);
    image
}

/// The tree with the image's own numbers.
pub const TREE: Tree = tree([P, N, ROOT, FREELIST]);

/// The tree with these numbers: page size, page count, root page, freelist page.
pub const fn tree([page_size, page_count, root_page, freelist_page]: [u64; 4]) -> Tree {
    Tree { page_size, page_count, root_page, freelist_page }
}

/// The image with its own numbers.
pub fn of(bytes: &[u8]) -> Image<'_> {
    Image::new(bytes, TREE)
}

/// Writes a meta page that names the small image's root and freelist.
pub fn put_meta(bytes: &mut [u8], page: u64, pagesize: u64, num_pages: u64, tx_id: u64) {
    let page_bytes = &mut bytes[(page * pagesize) as usize..];
    put_header(page_bytes, page, 3, 0);
    let fields = Meta {
        meta_page: page as u32,
        magic: 0x00AB_CDEF,
        version: 1,
        pagesize,
        root_page: ROOT,
        next_int: 7,
        num_pages,
        freelist_page: FREELIST,
        tx_id,
    };
    meta::write(page_bytes, &fields).unwrap();
}

/// Writes a header without overflow pages.
pub fn put_header(bytes: &mut [u8], id: u64, kind: u8, count: u64) {
    put_u64(bytes, 0, id);
    bytes[8] = kind;
    put_u64(bytes, 16, count);
    put_u64(bytes, 24, 0);
}

/// The value of a key: a bucket's 16 bytes, or the key a few times, longer than a page for "long".
fn value(kind: u64, key: &str) -> Vec<u8> {
    if kind == 1 {
        return [10_u64.to_le_bytes(), 1_u64.to_le_bytes()].concat();
    }
    key.repeat(if key == "long" { 300 } else { 5 }).into_bytes()
}

/// Writes a packed block over its pages.
fn put_block(image: &mut [u8], node: &Node) {
    let block = pack(node, P);
    let at = (node.id * P) as usize;
    image[at..at + block.len()].copy_from_slice(&block);
}
