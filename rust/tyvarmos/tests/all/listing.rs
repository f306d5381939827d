//! Every entry of a sound tree, read page by page by the plain reading.

use reading::block::page_block;
use tyvarmos::{Entry, Image, Kind};

/// What a lookup is to find.
#[derive(Clone, Copy, Debug, PartialEq)]
pub struct Listed<'a> {
    pub kind: Kind,
    pub value: &'a [u8],
    pub place: usize,
}

impl<'a> From<Entry<'a>> for Listed<'a> {
    fn from(entry: Entry<'a>) -> Listed<'a> {
        Listed { kind: entry.kind, value: entry.value, place: entry.place }
    }
}

/// Each key of the tree with its entry, in order.
pub fn entries(image: Image<'_>) -> Vec<(Vec<u8>, Listed<'_>)> {
    let mut listed = Vec::new();
    add(image, image.tree().root_page, &mut listed);
    listed
}

/// Adds the entries under a page.
fn add<'a>(image: Image<'a>, page: u64, listed: &mut Vec<(Vec<u8>, Listed<'a>)>) {
    let tree = image.tree();
    let block = page_block(image.bytes(), tree.page_size, tree.page_count, page, page == tree.root_page).unwrap();
    for (entry, start) in block.entries.iter().zip(&block.places) {
        if !block.leaf {
            add(image, entry.tag, listed);
            continue;
        }
        let kind = if entry.tag == 0 { Kind::Data } else { Kind::Bucket };
        let place = (page * tree.page_size) as usize + start + entry.key.len();
        listed.push((entry.key.to_vec(), Listed { kind, value: entry.value, place }));
    }
}
