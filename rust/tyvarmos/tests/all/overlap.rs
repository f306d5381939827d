//! Order 3: a block uses all its pages, and no page is used twice.

use reading::block::Entry;
use reading::layout::{put_u64, u64_at};
use reading::pack::{pack, Node};
use tyvarmos::{Fault, Image, Number, Tree};

use crate::small::tree;

const P: u64 = 1_024;
const ROOT: u64 = 2;
const OVERFLOW_AT: usize = 24;
const LEAF: u8 = 2;
const FREELIST: u8 = 4;

/// A leaf: its first page, how many it has, and its one key.
type Leaf<'a> = (u64, u64, &'a str);

/// An image of so many pages: a branch on page 2 over leaves.
struct Shard {
    bytes: Vec<u8>,
    tree: Tree,
}

impl Shard {
    /// The shard with these leaves, each written over those before it, and no freelist yet.
    fn new(page_count: u64, leaves: &[Leaf]) -> Shard {
        let mut shard =
            Shard { bytes: vec![0; (page_count * P) as usize], tree: tree([P, page_count, ROOT, page_count]) };
        let entry = |(page, _, key): &Leaf<'_>| (key.to_string(), *page);
        let mut children: Vec<(String, u64)> = leaves.iter().map(entry).collect();
        children.sort();
        let entries = children.iter().map(|(key, page)| Entry { tag: *page, key: key.as_bytes(), value: &[] });
        shard.put(&Node { id: ROOT, leaf: false, entries: entries.collect() });
        for (page, pages, key) in leaves {
            let value = vec![7; ((pages - 1) * P + 200) as usize];
            let entries = vec![Entry { tag: 0, key: key.as_bytes(), value: &value }];
            shard.put(&Node { id: *page, leaf: true, entries });
            assert_eq!(u64_at(&shard.bytes, (page * P) as usize + OVERFLOW_AT), pages - 1);
        }
        shard
    }

    fn put(&mut self, node: &Node) {
        let block = pack(node, P);
        self.bytes[(node.id * P) as usize..][..block.len()].copy_from_slice(&block);
    }

    /// The shard with a freelist of so many pages that has these ids.
    fn listing(mut self, page: u64, pages: u64, ids: &[u64]) -> Shard {
        let at = (page * P) as usize;
        let numbers = [page, FREELIST.into(), ids.len() as u64, pages - 1];
        for (i, number) in numbers.iter().chain(ids).enumerate() {
            put_u64(&mut self.bytes, at + 8 * i, *number);
        }
        self.tree.freelist_page = page;
        self
    }

    /// The shard with a number changed: at a place of a page.
    fn with(mut self, page: u64, at: usize, number: u64) -> Shard {
        put_u64(&mut self.bytes, (page * P) as usize + at, number);
        self
    }

    fn image(&self) -> Image<'_> {
        Image::new(&self.bytes, self.tree)
    }

    /// How many entries and pages the judge counts.
    fn counts(&self) -> (u64, u64) {
        let sound = self.image().judge().unwrap();
        (sound.entries(), sound.pages())
    }

    fn fault(&self) -> Fault {
        self.image().judge().unwrap_err()
    }
}

/// A page that is used twice.
fn page(page: u64) -> Fault {
    Fault::at_page(Number::ReachedTwice, page)
}

/// A free id whose page is in use.
fn id(freelist: u64, i: u64) -> Fault {
    Fault::at_element(Number::ReachedTwice, freelist, i)
}

/// Leaf 5 has pages 5 and 6, leaf 8 pages 8 to 10, leaf 12 one page; 3, 4, 7, 11 and 13 on are left.
const LEAVES: [Leaf; 3] = [(5, 2, "b"), (8, 3, "m"), (12, 1, "t")];

fn shard() -> Shard {
    Shard::new(20, &LEAVES)
}

#[test]
fn pages_are_counted_with_overflow_pages() {
    assert_eq!(shard().listing(14, 1, &[3, 4, 7, 11]).counts(), (3, 1 + 2 + 3 + 1 + 1));
    assert_eq!(shard().listing(14, 5, &[]).counts(), (3, 1 + 2 + 3 + 1 + 5));
    assert_eq!(Shard::new(8, &[(4, 1, "")]).listing(3, 1, &[5, 6, 7]).counts(), (1, 3));
}

#[test]
fn the_lost_shard() {
    let lost = shard().listing(14, 1, &[4, 6, 11]);
    assert_eq!(lost.fault(), id(14, 1));
    let sentence =
        "page 14, element 1: a page is used twice: it is part of two blocks, of one that is named twice, or of one and listed as free (8)";
    assert_eq!(lost.fault().to_string(), sentence);
    assert_eq!(lost.image().lookup(b"b").unwrap().unwrap().value, vec![7; P as usize + 200]);
    assert_eq!(shard().listing(14, 1, &[4, 7, 11]).counts().0, 3);
}

#[test]
fn no_free_id_is_a_page_of_a_block() {
    for (ids, i) in [
        ([3, 4, 5, 7], 2),
        ([3, 4, 6, 7], 2),
        ([9, 11, 13, 17], 0),
        ([3, 10, 11, 13], 1),
        ([2, 3, 4, 7], 0),
        ([3, 4, 7, 14], 3),
        ([3, 4, 7, 15], 3),
        ([4, 5, 6, 15], 1),
    ] {
        assert_eq!(shard().listing(14, 2, &ids).fault(), id(14, i), "{ids:?}");
    }
    assert_eq!(shard().listing(14, 2, &[3, 4, 7, 16]).counts(), (3, 9));
}

#[test]
fn the_rules_of_ids_come_before_their_use() {
    let fault = |ids: &[u64]| shard().listing(14, 1, ids).fault();
    assert_eq!(fault(&[6, 4, 7]), Fault::at_element(Number::Order, 14, 1));
    assert_eq!(fault(&[6, 7, 20]), Fault::at_element(Number::Element, 14, 2));
    assert_eq!(fault(&[6, 14, 15]), id(14, 0));
}

#[test]
fn a_block_that_grows_over_a_free_page_is_seen_by_the_list() {
    assert_eq!(shard().listing(14, 1, &[3, 7, 11]).with(5, OVERFLOW_AT, 2).fault(), id(14, 1));
    assert_eq!(shard().listing(14, 1, &[3, 11, 15]).with(14, OVERFLOW_AT, 1).fault(), id(14, 2));
}

#[test]
fn leaves_that_share_pages() {
    for overflow in 3..=7 {
        let over_the_next = shard().listing(14, 1, &[]).with(5, OVERFLOW_AT, overflow);
        assert_eq!(over_the_next.fault(), page(8), "{overflow}");
        let turned = [(12, 1, "b"), (8, 3, "m"), (5, 2, "t")];
        let over_those_before = Shard::new(20, &turned).listing(14, 1, &[]).with(5, OVERFLOW_AT, overflow);
        assert_eq!(over_those_before.fault(), page(8), "{overflow}");
    }
    for start in [9, 10] {
        for keys in [["m", "t"], ["t", "m"]] {
            let within = Shard::new(20, &[(5, 2, "b"), (8, 3, keys[0]), (start, 1, keys[1])]).listing(14, 1, &[]);
            assert_eq!(within.fault(), page(start), "{start}, {keys:?}");
            let longer = Shard::new(20, &[(5, 2, "b"), (8, 3, keys[0]), (start, 4, keys[1])]).listing(14, 1, &[]);
            assert_eq!(longer.fault(), page(start), "{start}, {keys:?}");
        }
    }
}

#[test]
fn a_header_comes_before_a_page_used_twice_and_a_table_after_it() {
    let header = |page| Fault::at_page(Number::Header, page);
    let overlapping = || shard().listing(14, 1, &[]).with(5, OVERFLOW_AT, 3);
    assert_eq!(overlapping().with(8, 0, 9).fault(), header(8));
    assert_eq!(overlapping().with(8, 8, FREELIST.into()).fault(), header(8));
    assert_eq!(overlapping().with(8, OVERFLOW_AT, 12).fault(), header(8));
    assert_eq!(overlapping().with(8, 16, 0).fault(), page(8));
    assert_eq!(overlapping().with(8, 32, 9).fault(), page(8));
    let named_twice = || shard().listing(14, 1, &[]).with(ROOT, 32 + 24, 5);
    assert_eq!(named_twice().fault(), page(5));
    assert_eq!(named_twice().with(5, 0, 6).fault(), header(5));
    let names_an_overflow_page = shard().listing(14, 1, &[]).with(ROOT, 32 + 24, 6);
    assert_eq!(names_an_overflow_page.fault(), header(6));
}

#[test]
fn a_freelist_that_is_a_page_of_the_tree() {
    for leaf in [5, 6, 8, 12, ROOT] {
        let mut freelist = shard();
        freelist.tree.freelist_page = leaf;
        assert_eq!(freelist.fault(), Fault::at_page(Number::Header, leaf));
    }
    assert_eq!(shard().listing(6, 1, &[]).fault(), page(6));
    assert_eq!(shard().listing(9, 1, &[3]).fault(), page(9));
    assert_eq!(shard().listing(7, 2, &[3]).fault(), page(8));
    assert_eq!(shard().listing(3, 12, &[]).fault(), page(5));
    assert_eq!(shard().listing(7, 2, &[]).with(7, 16, 999).fault(), page(8));
    assert_eq!(shard().listing(7, 1, &[]).with(7, 16, 999).fault(), Fault::at_page(Number::Table, 7));
    assert_eq!(shard().listing(7, 1, &[3, 4]).counts(), (3, 8));
}

#[test]
fn a_freelist_page_used_twice_is_told_from_its_first_id() {
    assert_eq!(shard().listing(14, 1, &[6]).fault(), id(14, 0));
    assert_eq!(shard().listing(14, 1, &[14]).fault(), id(14, 0));
    assert_eq!(shard().listing(6, 1, &[6]).fault(), page(6));
    let of_two_leaves = Shard::new(20, &[(8, 3, "b"), (10, 2, "m"), (12, 1, "t")]).listing(10, 1, &[3]);
    let leaf = of_two_leaves.with(10, 8, LEAF.into());
    assert_eq!((leaf.tree.freelist_page, leaf.fault()), (10, page(10)));
    let overflow_of_two = Shard::new(20, &[(8, 4, "b"), (9, 3, "m")]).listing(10, 1, &[3]);
    assert_eq!(overflow_of_two.fault(), page(9));
}

#[test]
fn a_block_of_300_pages() {
    const FIRST: u64 = 40;
    const LAST: u64 = 339;
    let long = |others: &[Leaf]| Shard::new(350, &[&[(FIRST, 300, "m")], others].concat());
    assert_eq!(long(&[(4, 1, "b"), (341, 1, "t")]).listing(343, 1, &[3, 39, 340]).counts(), (3, 304));
    for in_use in [FIRST, 63, 64, 65, 127, 128, 190, 256, 319, 320, LAST] {
        assert_eq!(long(&[(341, 1, "t")]).listing(343, 1, &[3, in_use, 344]).fault(), id(343, 1), "{in_use}");
    }
    for key in ["b", "t"] {
        assert_eq!(long(&[(LAST, 1, key)]).listing(343, 1, &[]).fault(), page(LAST));
        assert_eq!(long(&[(LAST, 3, key)]).listing(343, 1, &[]).fault(), page(LAST));
        assert_eq!(long(&[(39, 1, key)]).listing(343, 1, &[]).with(39, OVERFLOW_AT, 1).fault(), page(FIRST));
        assert_eq!(long(&[(190, 1, key)]).listing(343, 1, &[]).fault(), page(190));
    }
    assert_eq!(long(&[]).listing(LAST, 1, &[]).fault(), page(LAST));
    assert_eq!(long(&[]).listing(38, 3, &[]).fault(), page(FIRST));
    assert_eq!(long(&[]).listing(38, 2, &[]).counts(), (1, 303));
}
