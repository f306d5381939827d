//! The crate's calls with nothing around them, for the benchmark: blocks lie aligned, and output is made beforehand.

use super::aligned::Aligned;
use super::build::{branch, leaf, node_of_block, Item};
use super::split::{no_pages, siblings};
use crate::bytes::Bytes;
use crate::node::Node;
use crate::page::Pages;
use crate::page_node::PageNode;

/// A block as the crate reads it, and others that it writes, one for each piece.
pub struct Blocks {
    block: Aligned,
    out: Vec<Aligned>,
    pages: Pages,
    pagesize: u64,
}

impl Blocks {
    /// The block, and for each of its pieces room for one of so many pages.
    pub fn new(block: &[u8], pagesize: u64, pages: u64) -> Blocks {
        let block = Aligned::copy(block);
        let mut blocks = Blocks { block, out: Vec::new(), pages: no_pages(pagesize), pagesize };
        let room = |_| Aligned::filled((pages * pagesize) as usize, 0);
        blocks.out = (0..blocks.split()).map(room).collect();
        blocks
    }

    /// `index` on the page.
    pub fn index(&self, key: &[u8]) -> (usize, bool) {
        PageNode::Page(self.block.page()).index(key)
    }

    /// The node read, an entry inserted, and the node written.
    pub fn insert(&mut self, entry: &Item) -> u64 {
        let mut node = node_of_block(&self.block, self.pagesize);
        node.insert_data(leaf(entry));
        written(&node, &mut self.out[0], self.pagesize)
    }

    /// The node read, an entry deleted, and the node written.
    pub fn delete(&mut self, index: usize) -> u64 {
        let mut node = node_of_block(&self.block, self.pagesize);
        node.delete(index);
        written(&node, &mut self.out[0], self.pagesize)
    }

    /// The node read, a branch inserted, and the node written.
    pub fn insert_branch(&mut self, key: &[u8], page: u64) -> u64 {
        let mut node = node_of_block(&self.block, self.pagesize);
        node.insert_branch(&None::<Bytes>, branch(key, page, self.pagesize));
        written(&node, &mut self.out[0], self.pagesize)
    }

    /// The node read and split: how many pieces.
    pub fn split(&self) -> usize {
        1 + siblings(&mut node_of_block(&self.block, self.pagesize), &self.pages).len()
    }

    /// The node read and split, and every piece written to its own room.
    pub fn split_write(&mut self) -> u64 {
        let mut first = node_of_block(&self.block, self.pagesize);
        let others = siblings(&mut first, &self.pages);
        let mut bytes = written(&first, &mut self.out[0], self.pagesize);
        for (i, other) in others.iter().enumerate() {
            bytes += written(&other.borrow(), &mut self.out[i + 1], self.pagesize);
        }
        bytes
    }
}

/// Writes the node with `write_node`, and answers the bytes of the room that it has.
fn written(node: &Node, out: &mut Aligned, pagesize: u64) -> u64 {
    let length = out.bytes().len() as u64;
    let page = out.page_mut();
    page.id = 2;
    page.overflow = length / pagesize - 1;
    page.write_node(node, length / pagesize).unwrap();
    length
}
