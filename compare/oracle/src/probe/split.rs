//! `split` and the writing of its pieces.

use std::cell::RefCell;
use std::rc::Rc;
use std::sync::Arc;

use super::aligned::Aligned;
use super::build::{node_of_block, write_block};
use super::free::FreeTable;
use super::search::mapped;
use crate::bucket::{BucketMeta, InnerBucket};
use crate::node::Node;
use crate::page::Pages;

/// The pieces of a block, each written over `fill` with the id that `id_of` gives its place.
pub fn split(block: &[u8], pagesize: u64, fill: u8, id_of: impl Fn(usize) -> u64) -> Vec<Vec<u8>> {
    let block = Aligned::copy(block);
    let mut first = node_of_block(&block, pagesize);
    let others = siblings(&mut first, &no_pages(pagesize));
    let mut pieces = vec![write_block(&mut first, pagesize, id_of(0), fill)];
    for (i, other) in others.iter().enumerate() {
        pieces.push(write_block(&mut other.borrow_mut(), pagesize, id_of(i + 1), fill));
    }
    pieces
}

/// The pieces written with pages from the table: each page number, and the bytes the crate allocated and wrote.
pub fn split_into(block: &[u8], pagesize: u64, table: &mut FreeTable) -> Vec<(u64, Vec<u8>)> {
    let block = Aligned::copy(block);
    let mut first = node_of_block(&block, pagesize);
    let others = siblings(&mut first, &no_pages(pagesize));
    let mut pieces = vec![written(&mut first, table)];
    for other in others {
        pieces.push(written(&mut other.borrow_mut(), table));
    }
    pieces
}

/// The pages of a file that holds none, which `split` takes and does not read.
pub(super) fn no_pages(pagesize: u64) -> Pages {
    Pages::new(Arc::new(mapped(&[0; 8])), pagesize)
}

/// The pieces of a node after the first, which it keeps.
pub(super) fn siblings<'a>(node: &mut Node<'a>, pages: &Pages) -> Vec<Rc<RefCell<Node<'a>>>> {
    let meta = BucketMeta { root_page: 2, next_int: 0 };
    let mut bucket = InnerBucket::from_meta(meta, pages.clone());
    node.split(&mut bucket).unwrap_or_default()
}

fn written(node: &mut Node, table: &mut FreeTable) -> (u64, Vec<u8>) {
    node.write(&mut table.inner).unwrap();
    let (start, length) = table.inner.pages[&node.page_id];
    let bytes = unsafe { std::slice::from_raw_parts(start.as_ptr(), length) };
    (node.page_id, bytes.to_vec())
}
