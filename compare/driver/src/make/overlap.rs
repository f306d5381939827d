//! Changes after which two blocks share pages, or the freelist lists a page of a block, while the rest looks sound.

use std::collections::BTreeSet;

use super::fields::{get, put};
use super::image::{Image, Span};
use crate::rng::Rng;

/// One such change to an image with these blocks, the freelist's last.
pub fn overlap(rng: &mut Rng, image: &mut Image, spans: &[Span]) {
    match rng.below(4) {
        0 => lengthen(rng, image, spans),
        1 => plant(rng, image, spans),
        2 => change_id(rng, image, spans),
        _ => list(rng, image, spans),
    }
}

/// A page of a block: its first or another.
fn page(rng: &mut Rng, spans: &[Span]) -> u64 {
    let (first, pages) = rng.pick(spans);
    first + rng.below(pages as usize) as u64
}

/// Lets a block end later: by a few pages, or in another block.
fn lengthen(rng: &mut Rng, image: &mut Image, spans: &[Span]) {
    let (first, pages) = rng.pick(spans);
    let later: Vec<Span> = spans.iter().filter(|(other, _)| *other > first).copied().collect();
    let few = later.is_empty() || rng.one_in(3);
    let last = if few { first + pages - 1 + rng.between(1, 3) } else { page(rng, &later) };
    let at = image.start(first) + 24;
    put(&mut image.bytes, at, last - first);
}

/// Copies the first page of a block to a page of a block, and lets whoever names the one name the other.
fn plant(rng: &mut Rng, image: &mut Image, spans: &[Span]) {
    let (from, to) = (rng.pick(spans).0, page(rng, spans));
    let (start, at) = (image.start(from), image.start(to));
    image.bytes.copy_within(start..start + image.p as usize, at);
    put(&mut image.bytes, at, to);
    for named in [&mut image.root, &mut image.freelist] {
        if *named == from {
            *named = to;
        }
    }
    for span in spans {
        for child in children(image, *span) {
            if get(&image.bytes, child) == from {
                put(&mut image.bytes, child, to);
            }
        }
    }
}

/// Where a branch has the pages of its children.
fn children(image: &Image, (first, pages): Span) -> impl Iterator<Item = usize> {
    let start = image.start(first);
    let room = (pages * image.p - 32) / 24;
    let count = if image.bytes[start + 8] == 1 { get(&image.bytes, start + 16).min(room) } else { 0 };
    (0..count as usize).map(move |i| start + 32 + 24 * i)
}

/// Where the freelist starts, and how many ids it has and has room for.
fn ids(image: &Image, spans: &[Span]) -> (usize, usize, usize) {
    let (first, pages) = spans[spans.len() - 1];
    let (start, room) = (image.start(first), (pages * image.p - 32) / 8);
    (start, get(&image.bytes, start + 16).min(room) as usize, room as usize)
}

/// Puts a page of a block in the place of a free id.
fn change_id(rng: &mut Rng, image: &mut Image, spans: &[Span]) {
    let (start, count, _) = ids(image, spans);
    let at = start + 32 + 8 * rng.below(count.max(1));
    put(&mut image.bytes, at, page(rng, spans));
}

/// Lists most of the free pages again, and among them, all rising, some of blocks or from anywhere.
fn list(rng: &mut Rng, image: &mut Image, spans: &[Span]) {
    let (start, count, room) = ids(image, spans);
    let id = |i: usize| get(&image.bytes, start + 32 + 8 * i);
    let mut listed: BTreeSet<u64> = (0..count).filter(|_| !rng.one_in(6)).map(id).collect();
    for _ in 0..rng.between(1, 2) {
        listed.insert(if rng.one_in(3) { rng.between(2, image.n - 1) } else { page(rng, spans) });
    }
    put(&mut image.bytes, start + 16, listed.len().min(room) as u64);
    for (i, id) in listed.into_iter().take(room).enumerate() {
        put(&mut image.bytes, start + 32 + 8 * i, id);
    }
}
