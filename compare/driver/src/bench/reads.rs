//! How much of an image the lookup of a key reads: counted from what each lookup does, and not measured.
//!
//! What is read more than once counts once. To compare two keys counts, of each, as many bytes as the shorter has, though
//! a comparison may stop before. Nothing outside of the image counts: the key that is looked for, the answer, and what the
//! crate has in memory besides (its map of nodes, the path, the parents of pages, the entry that it hands back).

use reading::block::{page_block, Block};
use reading::layout::{element_size, TABLE_START};
use reading::quick::quick_places;

/// The bytes of a cache line; the image starts with one.
const LINE: u64 = 64;

/// A start in the image, and how many bytes from there on.
type Place = (u64, u64);

/// The page size, the page count and the root.
type Numbers = (u64, u64, u64);

/// How many bytes of an image, and how many cache lines, the lookup of a key reads: the quick one, the full one and the
/// crate's.
pub struct Read {
    pub bytes: [usize; 3],
    pub lines: [usize; 3],
}

impl Read {
    /// What is read of a sound image for a key.
    pub fn of(image: &[u8], (p, n, root): Numbers, key: &[u8]) -> Read {
        let way = way(image, (p, n, root), key);
        let quick = quick_places(image, p, n, root, key);
        let full = way.iter().flat_map(Step::whole).chain(quick.iter().copied()).collect();
        let by_crate = way.iter().flat_map(|step| step.by_crate(key)).collect();
        let kinds: [Vec<Place>; 3] = [quick, full, by_crate];
        let touched = |unit| std::array::from_fn(|kind| touched(&kinds[kind], unit));
        Read { bytes: touched(1), lines: touched(LINE) }
    }
}

/// How many different units of so many bytes these places lie in.
fn touched(places: &[Place], unit: u64) -> usize {
    let places = places.iter().filter(|(_, length)| *length > 0);
    let mut units: Vec<u64> = places.flat_map(|(start, length)| start / unit..=(start + length - 1) / unit).collect();
    units.sort_unstable();
    units.dedup();
    units.len()
}

/// A block on the way from the root to a leaf, and where it starts in the image.
struct Step<'a> {
    start: u64,
    block: Block<'a>,
}

/// The blocks on the way to a key.
fn way<'a>(image: &'a [u8], (p, n, root): Numbers, key: &[u8]) -> Vec<Step<'a>> {
    let (mut way, mut page) = (Vec::new(), root);
    loop {
        let block = page_block(image, p, n, page, page == root).unwrap();
        let (start, leaf) = (page * p, block.leaf);
        if !leaf {
            page = block.entries[block.index(key).0].tag;
        }
        way.push(Step { start, block });
        if leaf {
            return way;
        }
    }
}

impl Step<'_> {
    /// A place in element `i`.
    fn in_element(&self, i: usize, at: usize, length: u64) -> Place {
        (self.start + (TABLE_START + i * element_size(self.block.leaf) + at) as u64, length)
    }

    /// What a comparison of key `i` with one of this length reads of it.
    fn compared(&self, i: usize, length: usize) -> Place {
        (self.start + self.block.places[i] as u64, self.block.entries[i].key.len().min(length) as u64)
    }

    /// What the full lookup reads of the block besides what the quick one reads: rule 6 of every element, its kind, pos,
    /// key size and value size, or in a branch key size and pos; and rule 7, in which every key is compared with the one
    /// before it. Header, halving and child it has in common with the quick one.
    fn whole(&self) -> Vec<Place> {
        let (leaf, entries) = (self.block.leaf, &self.block.entries);
        let mut places = Vec::new();
        for i in 0..entries.len() {
            let numbers = if leaf { vec![(0, 1), (8, 24)] } else { vec![(8, 16)] };
            places.extend(numbers.into_iter().map(|(at, length)| self.in_element(i, at, length)));
            if i > 0 {
                places.push(self.compared(i - 1, entries[i].key.len()));
                places.push(self.compared(i, entries[i - 1].key.len()));
            }
        }
        places
    }

    /// What `Bucket::get` reads of the block, by the crate's source (cursor.rs `search`, page_node.rs `id`, `index`, `leaf`,
    /// `index_page` and `val`, page.rs `key`): id, type and count; pos, key size and key of each element that std's binary
    /// search looks at, which is asked here for its way; a branch's child; of an entry that is found, which is no bucket here,
    /// kind and value size.
    fn by_crate(&self, key: &[u8]) -> Vec<Place> {
        let entries = &self.block.entries;
        let mut places = vec![(self.start, 9), (self.start + 16, 8)];
        let elements: Vec<usize> = (0..entries.len()).collect();
        let found = elements.binary_search_by(|i| {
            places.extend([self.in_element(*i, 8, 16), self.compared(*i, key.len())]);
            entries[*i].key.cmp(key)
        });
        match found {
            Ok(i) if self.block.leaf => places.extend([self.in_element(i, 0, 1), self.in_element(i, 24, 8)]),
            Err(_) if self.block.leaf => {}
            Ok(i) => places.push(self.in_element(i, 0, 8)),
            Err(i) => places.push(self.in_element(i.saturating_sub(1), 0, 8)),
        }
        places
    }
}
