//! `index`, `index_page` and `val` on one block, and the crate's own descent through an image.

use std::cell::RefCell;
use std::rc::Rc;
use std::sync::Arc;

use memmap2::{Mmap, MmapMut};

use super::aligned::Aligned;
use super::build::{node_of_block, Item};
use super::caught;
use crate::bucket::{BucketMeta, InnerBucket};
use crate::node::Leaf;
use crate::page::{Page, Pages};
use crate::page_node::PageNode;

/// `index` on the page and on the node read from it.
pub fn index(block: &[u8], pagesize: u64, key: &[u8]) -> [(usize, bool); 2] {
    with_both(block, pagesize, |page_node| page_node.index(key))
}

/// `index_page` on the page and on the node, nothing where it panics.
pub fn index_page(block: &[u8], pagesize: u64, index: usize) -> [Option<u64>; 2] {
    with_both(block, pagesize, |page_node| caught(|| page_node.index_page(index)))
}

/// `val` on the page and on the node, nothing where it panics; no item past the end.
pub fn val(block: &[u8], pagesize: u64, index: usize) -> [Option<Option<Item>>; 2] {
    with_both(block, pagesize, |page_node| caught(|| page_node.val(index).as_ref().map(item)))
}

fn with_both<T>(block: &[u8], pagesize: u64, call: impl Fn(&PageNode) -> T) -> [T; 2] {
    let block = Aligned::copy(block);
    let node = Rc::new(RefCell::new(node_of_block(&block, pagesize)));
    [call(&PageNode::Page(block.page())), call(&PageNode::Node(node))]
}

/// A leaf entry copied out of the crate.
pub(super) fn item(leaf: &Leaf) -> Item {
    Item { tag: u64::from(leaf.node_type()), key: leaf.key().to_vec(), value: leaf.value().to_vec() }
}

/// An image in memory that the crate takes for its mapped file.
pub struct Image {
    pages: Pages,
}

/// What the crate's descent found, and where in the image its value stands.
#[derive(Debug, PartialEq, Eq)]
pub struct Hit {
    pub kind: u64,
    pub place: u64,
    pub value: Vec<u8>,
}

/// How far from `start` the value of an entry stands: a bucket's, which the crate copies out, right after its key.
pub(super) fn value_place(leaf: &Leaf, start: *const u8) -> u64 {
    let value = if leaf.is_kv() { leaf.value().as_ptr() } else { leaf.key().as_ptr_range().end };
    (value as usize - start as usize) as u64
}

impl Image {
    pub fn new(bytes: &[u8], pagesize: u64) -> Image {
        Image { pages: Pages::new(Arc::new(mapped(bytes)), pagesize) }
    }

    /// `get` of a bucket with this root.
    pub fn get(&self, root: u64, key: &[u8]) -> Option<Hit> {
        let meta = BucketMeta { root_page: root, next_int: 0 };
        let leaf = InnerBucket::from_meta(meta, self.pages.clone()).get(key)?;
        let place = value_place(&leaf, self.pages.data.as_ptr());
        Some(Hit { kind: u64::from(leaf.node_type()), place, value: leaf.value().to_vec() })
    }

    /// The first page and the pages of each block of the tree under this root.
    pub fn spans(&self, root: u64) -> Vec<(u64, u64)> {
        let page = self.pages.page(root);
        let mut spans = vec![(root, page.overflow + 1)];
        if page.page_type == Page::TYPE_BRANCH {
            spans.extend(page.branch_elements().iter().flat_map(|element| self.spans(element.page)));
        }
        spans
    }

    /// The pages of the tree under this root and of the freelist.
    pub fn used(&self, root: u64, freelist: u64) -> u64 {
        let pages = [root, freelist].into_iter().flat_map(|first| self.spans(first)).map(|(_, pages)| pages);
        pages.sum()
    }

    /// The entries in the leaves of the tree under this root.
    pub fn entries(&self, root: u64) -> u64 {
        let pages = self.spans(root).into_iter().map(|(first, _)| self.pages.page(first));
        pages.filter(|page| page.page_type == Page::TYPE_LEAF).map(|page| page.count).sum()
    }
}

/// An anonymous mapping with these bytes.
pub(super) fn mapped(bytes: &[u8]) -> Mmap {
    let mut map = MmapMut::map_anon(bytes.len()).unwrap();
    map.copy_from_slice(bytes);
    map.make_read_only().unwrap()
}
