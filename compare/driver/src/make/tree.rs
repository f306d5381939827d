//! Sound images with a tree whose entries and pages are known.

use oracle::probe::{write_content, Content, Item};

use super::content;
use super::fields::{freelist_block, put};
use super::image::{Image, Span};
use super::loose::spread;
use crate::rng::Rng;

/// A sound image and what is in it.
pub struct Tree {
    pub image: Image,
    pub items: Vec<Item>,
    /// Every block, the freelist's last.
    pub spans: Vec<Span>,
}

/// A node in the making: its tags are places in the list of nodes until pages are known.
struct Node {
    content: Content,
    low: Vec<u8>,
    high: Vec<u8>,
}

/// What a tree is to look like.
pub struct Shape {
    pub p: u64,
    pub entries: usize,
    /// Values are mostly short, at times of up to so many bytes or three times as many.
    pub value: u64,
    pub levels: usize,
    pub fanout: usize,
}

/// A shape with few pages.
pub fn shape(rng: &mut Rng) -> Shape {
    let large = rng.one_in(4);
    let p = if large { super::page_size(rng) } else { super::small_page_size(rng) };
    let entries = if large { rng.pick(&[1, 5, 20]) } else { rng.pick(&[0, 1, 2, 5, 20, 60, 150]) };
    let value = rng.pick(&[p / 8, p / 8, p]);
    Shape { p, entries, value, levels: rng.pick(&[1, 1, 2, 3, 4, 15, 16]), fanout: rng.pick(&[2, 4, 9]) }
}

/// A random sound image of this shape.
pub fn tree(rng: &mut Rng, shape: &Shape) -> Tree {
    let items = content::content(rng, true, shape.entries, shape.value).items;
    let nodes = nodes(rng, &items, shape);
    let mut sizes: Vec<u64> = nodes.iter().map(|node| pages(rng, &node.content, shape.p)).collect();
    sizes.push(rng.between(1, 2));
    let (starts, n) = place(rng, &sizes);
    let spans: Vec<Span> = starts.iter().copied().zip(sizes).collect();
    let mut bytes = rng.bytes((n * shape.p) as usize);
    let mut put_block = |block: Vec<u8>, first: u64| {
        let at = (first * shape.p) as usize;
        bytes[at..at + block.len()].copy_from_slice(&block);
    };
    for (i, node) in nodes.iter().enumerate() {
        put_block(block(rng, node, &starts, spans[i], shape.p), starts[i]);
    }
    let (freelist, pages) = spans[nodes.len()];
    let used = |id: &u64| spans.iter().any(|(first, pages)| (*first..first + pages).contains(id));
    let ids: Vec<u64> = (2..n).filter(|id| !used(id) && rng.one_in(2)).take(shape.p as usize / 8 - 4).collect();
    put_block(freelist_block(shape.p, freelist, pages, &ids), freelist);
    let image = Image { bytes, p: shape.p, n, root: starts[nodes.len() - 1], freelist };
    Tree { image, items, spans }
}

/// Leaves, then level above level, the root last.
fn nodes(rng: &mut Rng, items: &[Item], shape: &Shape) -> Vec<Node> {
    let mut nodes = Vec::new();
    let mut rest = items;
    let one_leaf = shape.levels == 1;
    while nodes.is_empty() || !rest.is_empty() {
        let take = if one_leaf { rest.len() } else { (1 + rng.below(shape.fanout)).min(rest.len()) };
        let (taken, left) = rest.split_at(take);
        let key = |item: Option<&Item>| item.map_or(Vec::new(), |item| item.key.clone());
        let (low, high) = (key(taken.first()), key(taken.last()));
        nodes.push(Node { content: Content { leaf: true, items: taken.to_vec() }, low, high });
        rest = left;
    }
    if items.is_empty() {
        return nodes;
    }
    let (mut from, mut levels) = (0, 1);
    while nodes.len() - from > 1 || levels < shape.levels {
        let fanout = (levels + 4 <= shape.levels).then_some(shape.fanout);
        let next = nodes.len();
        raise(rng, &mut nodes, from, fanout);
        from = next;
        levels += 1;
    }
    nodes
}

/// Adds a level of branches over the nodes from `from` on: one for all of them where there is no fanout.
fn raise(rng: &mut Rng, nodes: &mut Vec<Node>, from: usize, fanout: Option<usize>) {
    let end = nodes.len();
    let mut start = from;
    let mut before: Option<Vec<u8>> = None;
    while start < end {
        let take = fanout.map_or(end, |fanout| 1 + rng.below(fanout)).min(end - start);
        let mut items = Vec::new();
        for (child, node) in nodes.iter().enumerate().take(start + take).skip(start) {
            items.push(Item { tag: child as u64, key: separator(rng, &before, &node.low), value: Vec::new() });
            before = Some(node.high.clone());
        }
        let low = items[0].key.clone();
        let high = nodes[start + take - 1].high.clone();
        nodes.push(Node { content: Content { leaf: false, items }, low, high });
        start += take;
    }
}

/// A key above all before it and not above `low`: `low` itself, or a beginning of it.
fn separator(rng: &mut Rng, before: &Option<Vec<u8>>, low: &[u8]) -> Vec<u8> {
    let shorter = &low[..rng.below(low.len() + 1)];
    let above = before.as_ref().is_none_or(|before| shorter > before.as_slice());
    if above && rng.one_in(2) {
        shorter.to_vec()
    } else {
        low.to_vec()
    }
}

/// The pages of a node's block, at times more than it needs.
fn pages(rng: &mut Rng, content: &Content, p: u64) -> u64 {
    let more = if rng.one_in(5) { rng.between(1, 2) } else { 0 };
    content::size(content).div_ceil(p) + more
}

/// A start for blocks of these sizes, in any order with gaps, and a page count that holds them.
pub fn place(rng: &mut Rng, sizes: &[u64]) -> (Vec<u64>, u64) {
    let mut order: Vec<usize> = (0..sizes.len()).collect();
    rng.shuffle(&mut order);
    let mut starts = vec![0; sizes.len()];
    let mut next = 2;
    for i in order {
        next += if rng.one_in(4) { rng.between(1, 3) } else { 0 };
        starts[i] = next;
        next += sizes[i];
    }
    (starts, next + rng.below(3) as u64)
}

/// The bytes of a node's block: as the crate writes it, or spread.
fn block(rng: &mut Rng, node: &Node, starts: &[u64], (first, pages): Span, p: u64) -> Vec<u8> {
    let mut content = node.content.clone();
    if !content.leaf {
        content.items.iter_mut().for_each(|item| item.tag = starts[item.tag as usize]);
    }
    if rng.one_in(2) {
        return spread(rng, &content, p, first, pages);
    }
    let mut block = write_content(&content, p, first, 0xAA);
    block.resize((pages * p) as usize, 0xAA);
    put(&mut block, 24, pages - 1);
    block
}
