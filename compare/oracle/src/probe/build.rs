//! Nodes of the crate from plain content, and their blocks.

use super::aligned::Aligned;
use super::free::FreeTable;
use crate::bytes::Bytes;
use crate::node::{Branch, Leaf, Node, NodeData};
use crate::page::Page;

/// An entry: the tag is a leaf entry's kind (0 data, 1 bucket) or a branch entry's page.
#[derive(Clone, Debug, PartialEq, Eq)]
pub struct Item {
    pub tag: u64,
    pub key: Vec<u8>,
    pub value: Vec<u8>,
}

/// The entries of a leaf or of a branch.
#[derive(Clone, Debug, PartialEq, Eq)]
pub struct Content {
    pub leaf: bool,
    pub items: Vec<Item>,
}

/// The block that `write_node` makes of this content in a buffer of `fill`.
pub fn write_content(content: &Content, pagesize: u64, id: u64, fill: u8) -> Vec<u8> {
    let mut node = node(content, pagesize);
    write_block(&mut node, pagesize, id, fill)
}

/// The node of the crate with this content.
pub(super) fn node(content: &Content, pagesize: u64) -> Node<'_> {
    let kind = if content.leaf { Page::TYPE_LEAF } else { Page::TYPE_BRANCH };
    let mut node = Node::new(0, kind, pagesize);
    node.data = if content.leaf {
        NodeData::Leaves(content.items.iter().map(leaf).collect())
    } else {
        NodeData::Branches(content.items.iter().map(|item| branch(&item.key, item.tag, pagesize)).collect())
    };
    node
}

/// A leaf entry of the crate.
pub(super) fn leaf(item: &Item) -> Leaf<'_> {
    let key = Bytes::Slice(&item.key);
    match item.tag {
        0 => Leaf::Kv(key, Bytes::Slice(&item.value)),
        _ => Leaf::Bucket(key, item.value.as_slice().into()),
    }
}

/// A branch entry of the crate, which makes one only from a node with this first key.
pub(super) fn branch(key: &[u8], page: u64, pagesize: u64) -> Branch<'_> {
    let first = Leaf::Kv(Bytes::Slice(key), Bytes::Slice(&[]));
    let mut child = Node::with_data(0, NodeData::Leaves(vec![first]), pagesize);
    child.page_id = page;
    Branch::from_node(&child)
}

/// The node that the crate reads from a block.
pub(super) fn node_of_block<'a>(block: &'a Aligned, pagesize: u64) -> Node<'a> {
    Node::from_page(0, block.page(), pagesize)
}

/// The node's size, as the crate asks for when it writes the node.
pub(super) fn node_size(node: &mut Node, pagesize: u64) -> u64 {
    let mut scratch = FreeTable::new(pagesize, 4);
    node.write(&mut scratch.inner).unwrap();
    scratch.inner.pages[&node.page_id].1 as u64
}

/// Writes the node over a buffer of `fill` as `TxFreelist::allocate` and `Node::write` do, with this id.
pub(super) fn write_block(node: &mut Node, pagesize: u64, id: u64, fill: u8) -> Vec<u8> {
    let pages = node_size(node, pagesize).div_ceil(pagesize);
    let mut buffer = Aligned::filled((pages * pagesize) as usize, fill);
    let page = buffer.page_mut();
    page.id = id;
    page.overflow = pages - 1;
    page.write_node(node, pages).unwrap();
    buffer.bytes().to_vec()
}
