//! Ways to damage an image.

use std::ops::Range;

use reading::layout::{put_u64, u64_at, LEAF};

use crate::rng::Rng;

/// Damages these bytes once to three times.
pub fn damage(rng: &mut Rng, bytes: &mut [u8], p: usize) {
    for _ in 0..1 + rng.below(3) {
        match rng.below(11) {
            0 => flip(rng, bytes, p),
            1 | 2 => set_field(rng, bytes, p),
            3 => nudge_field(rng, bytes, p),
            4 => copy_page(rng, bytes, p),
            5 => copy_words(rng, bytes, p),
            6 => fill(rng, bytes, p),
            7 => lengthen(rng, bytes, p),
            8 => list(rng, bytes, p),
            9 => liken(rng, bytes, p),
            _ => set_type(rng, bytes, p),
        }
    }
}

/// The start of a page.
fn page(rng: &mut Rng, bytes: &[u8], p: usize) -> usize {
    p * rng.below(bytes.len() / p)
}

/// A place divisible by 8 in a page, most often in its header or its first elements.
fn word(rng: &mut Rng, bytes: &[u8], p: usize) -> usize {
    let words = if rng.one_in(4) { p / 8 } else { 4 + 4 * 6 };
    page(rng, bytes, p) + 8 * rng.below(words)
}

/// Flips a bit.
fn flip(rng: &mut Rng, bytes: &mut [u8], p: usize) {
    let at = word(rng, bytes, p) + rng.below(8);
    bytes[at] ^= 1 << rng.below(8);
}

/// Sets a number to one at a limit.
fn set_field(rng: &mut Rng, bytes: &mut [u8], p: usize) {
    let at = word(rng, bytes, p);
    let last = (bytes.len() / p) as u64;
    let near = rng.below(130) as u64;
    let limits = [0, 1, 2, last - 1, last, last + 1, p as u64, 1 << 63, u64::MAX, u64::MAX - near, near, near];
    put_u64(bytes, at, rng.pick(&limits));
}

/// Adds a little to a number, or takes a little from it.
fn nudge_field(rng: &mut Rng, bytes: &mut [u8], p: usize) {
    let at = word(rng, bytes, p);
    let change = rng.pick(&[1, 1, 2, 8, 24, 32, p as u64]);
    let number = u64_at(bytes, at);
    let changed = if rng.one_in(2) { number.wrapping_add(change) } else { number.wrapping_sub(change) };
    put_u64(bytes, at, changed);
}

/// Writes a page over another one, at times with the id that belongs there.
fn copy_page(rng: &mut Rng, bytes: &mut [u8], p: usize) {
    let (from, to) = (page(rng, bytes, p), page(rng, bytes, p));
    bytes.copy_within(from..from + p, to);
    if rng.one_in(2) {
        put_u64(bytes, to, (to / p) as u64);
    }
}

/// Writes some words over others.
fn copy_words(rng: &mut Rng, bytes: &mut [u8], p: usize) {
    let length = 8 * (1 + rng.below(4));
    let most = bytes.len() - length;
    let (from, to) = (word(rng, bytes, p).min(most), word(rng, bytes, p).min(most));
    bytes.copy_within(from..from + length, to);
}

/// Fills a part of a page, or all of it, with zeros or anything.
fn fill(rng: &mut Rng, bytes: &mut [u8], p: usize) {
    let start = page(rng, bytes, p) + rng.pick(&[0, 0, 16, 32, p / 2]);
    let end = start + 1 + rng.below(p - start % p);
    match rng.one_in(2) {
        true => bytes[start..end].fill(0),
        false => rng.fill(&mut bytes[start..end]),
    }
}

/// Sets the type of a page.
fn set_type(rng: &mut Rng, bytes: &mut [u8], p: usize) {
    let at = page(rng, bytes, p) + 8;
    bytes[at] = rng.pick(&[0, 1, 1, 2, 2, 3, 4, 255]);
}

/// Gives a page a few overflow pages.
fn lengthen(rng: &mut Rng, bytes: &mut [u8], p: usize) {
    let at = page(rng, bytes, p) + 24;
    put_u64(bytes, at, 1 + rng.below(3) as u64);
}

/// Lists a page as free, in the place of the first or second id of a freelist.
fn list(rng: &mut Rng, bytes: &mut [u8], p: usize) {
    let freelist = bytes.chunks(p).position(|page| page[8] == 4);
    let (id, listed) = (rng.below(2), rng.below(bytes.len() / p) as u64);
    if let Some(page) = freelist {
        put_u64(bytes, page * p + 32 + 8 * id, listed);
    }
}

/// Lets a key begin as the one before it, and then be lower.
fn liken(rng: &mut Rng, bytes: &mut [u8], p: usize) {
    let start = page(rng, bytes, p);
    let i = 1 + rng.below(u64_at(bytes, start + 16).clamp(2, 20) as usize - 1);
    let (Some(before), Some(key)) = (key(bytes, start, i - 1), key(bytes, start, i)) else { return };
    let most = before.len().min(key.len());
    let length = rng.below(most + 1);
    bytes.copy_within(before.start..before.start + length, key.start);
    if length < most {
        bytes[key.start + length] = bytes[before.start + length].wrapping_sub(1);
    }
}

/// Where the key of an element stands, if that is in these bytes.
fn key(bytes: &[u8], start: usize, i: usize) -> Option<Range<usize>> {
    let (size, pos_at, size_at) = if bytes[start + 8] == LEAF { (32, 8, 16) } else { (24, 16, 8) };
    let at = start + 32 + i * size;
    let number = |at: usize| bytes.get(at..at + 8).map(|_| u64_at(bytes, at));
    let from = (at as u64).checked_add(number(at + pos_at)?)?;
    let end = from.checked_add(number(at + size_at)?)?;
    (end <= bytes.len() as u64).then_some(from as usize..end as usize)
}
