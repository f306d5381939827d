//! Changes after which two keys that begin alike are out of order, or a key out of its range by its last bytes.

use super::fields::{get, put};
use super::image::{Image, Span};
use crate::rng::Rng;

/// Lengths around those of the words that a comparison may go by.
const LENGTHS: [usize; 10] = [0, 1, 7, 8, 9, 11, 15, 16, 17, 23];

/// Of so many pairs the one with the longest keys is taken, since most keys are short.
const TRIES: usize = 16;

/// A key: where its length stands, where it starts, and how long it is.
#[derive(Clone, Copy)]
struct Key {
    size_at: usize,
    start: usize,
    length: usize,
}

impl Key {
    /// The key of an element of the block that starts at `at`, where it lies in the bytes.
    fn of(bytes: &[u8], at: usize, i: usize) -> Option<Key> {
        let leaf = bytes[at + 8] == 2;
        let element = at + 32 + i * if leaf { 32 } else { 24 };
        let (pos_at, size_at) = if leaf { (element + 8, element + 16) } else { (element + 16, element + 8) };
        if element + 24 > bytes.len() {
            return None;
        }
        let (start, length) = ((element as u64).checked_add(get(bytes, pos_at))?, get(bytes, size_at));
        let end = start.checked_add(length)?;
        (end <= bytes.len() as u64).then_some(Key { size_at, start: start as usize, length: length as usize })
    }

    fn bytes(self, all: &[u8]) -> Vec<u8> {
        all[self.start..self.start + self.length].to_vec()
    }
}

/// How many elements a block says that it has, some at most.
fn count(bytes: &[u8], at: usize) -> usize {
    get(bytes, at + 16).min(300) as usize
}

/// Two neighbours of the block that starts at `at`: the later begins as the one before it, and is not above it.
pub fn disorder(rng: &mut Rng, bytes: &mut [u8], at: usize) {
    let pair = |i: usize| Key::of(bytes, at, i).zip(Key::of(bytes, at, i + 1));
    let pairs = (0..TRIES).filter_map(|_| pair(rng.below(count(bytes, at).max(2) - 1)));
    if let Some((before, key)) = pairs.max_by_key(|(before, key)| before.length.min(key.length)) {
        liken(rng, bytes, key, &before.bytes(bytes), false);
    }
}

/// Two neighbours of a block, or a key and an end of its range, out of order.
pub fn part(rng: &mut Rng, image: &mut Image, spans: &[Span]) {
    if rng.one_in(3) {
        let at = image.start(rng.pick(spans).0);
        return disorder(rng, &mut image.bytes, at);
    }
    let high = rng.one_in(2);
    let crossings = (0..TRIES).filter_map(|_| crossing(rng, image, spans, high));
    if let Some((key, end)) = crossings.max_by_key(|(key, end)| key.length.min(end.len())) {
        liken(rng, &mut image.bytes, key, &end, high);
    }
}

/// A key that is first in a child, and the child's lower end; or one that is last, and its upper end.
fn crossing(rng: &mut Rng, image: &Image, spans: &[Span], high: bool) -> Option<(Key, Vec<u8>)> {
    let branches: Vec<usize> = spans.iter().map(|(first, _)| image.start(*first)).collect();
    let branches: Vec<usize> = branches.into_iter().filter(|at| image.bytes[at + 8] == 1).collect();
    let at = *branches.get(rng.below(branches.len().max(1)))?;
    let i = rng.below(count(&image.bytes, at).max(1));
    let end = Key::of(&image.bytes, at, i + usize::from(high))?.bytes(&image.bytes);
    let child = get(&image.bytes, at + 32 + 24 * i);
    let start = spans.iter().find(|(first, _)| *first == child).map(|(first, _)| image.start(*first))?;
    let last = if high { count(&image.bytes, start).checked_sub(1)? } else { 0 };
    Some((Key::of(&image.bytes, start, last)?, end))
}

/// Lets a key begin as another does, and then go on as it did, differ by one, or end.
fn liken(rng: &mut Rng, bytes: &mut [u8], key: Key, other: &[u8], higher: bool) {
    let most = key.length.min(other.len());
    let fitting: Vec<usize> = LENGTHS.into_iter().filter(|length| *length <= most).collect();
    let length = if rng.one_in(3) { rng.below(most + 1) } else { rng.pick(&fitting) };
    bytes[key.start..key.start + length].copy_from_slice(&other[..length]);
    match (rng.below(6), other.get(length)) {
        (0, _) => {}
        (1, _) => put(bytes, key.size_at, length as u64),
        (_, Some(byte)) if length < key.length => {
            bytes[key.start + length] = if higher { byte.wrapping_add(1) } else { byte.wrapping_sub(1) };
        }
        _ => put(bytes, key.size_at, length as u64),
    }
}
