//! Judge and both lookups on changed images.

use oracle::probe::search;
use subject::Lookup;

use super::{change, Seen};
use crate::by_reading::Reading;
use crate::make::content;
use crate::make::fields::{get, put};
use crate::make::image::{Image, Span};
use crate::make::overlap::overlap;
use crate::make::parting::part;
use crate::make::tree::{self, Tree};
use crate::parts::lookups::{compare, hit, outside};
use crate::parts::Run;
use crate::rng::Rng;

pub fn run(run: &mut Run, round: usize, seen: &mut Seen) {
    let shape = tree::shape(&mut run.rng);
    let Tree { image: sound, items, spans } = tree::tree(&mut run.rng, &shape);
    let keys: Vec<Vec<u8>> = items.into_iter().map(|item| item.key).take(12).collect();
    for _ in 0..8 {
        let mut image = sound.clone();
        disturb(&mut run.rng, &mut image, &spans);
        judge(run, round, &image, seen);
        lookups(run, round, &image, &keys, seen);
    }
}

/// One or two changes: to a field, a page named, the freelist page, keys, which then begin alike, or blocks, which then
/// overlap; or to the geometry.
fn disturb(rng: &mut Rng, image: &mut Image, spans: &[Span]) {
    for _ in 0..rng.between(1, 2) {
        let (at, other) = (image.start(rng.pick(spans).0), rng.pick(spans).0);
        match rng.below(20) {
            0 => image.root = other,
            1 => image.freelist = other,
            2 => put(&mut image.bytes, at + 32, other),
            3 => shift_key(&mut image.bytes, at),
            4..=6 => overlap(rng, image, spans),
            7..=12 => part(rng, image, spans),
            _ => change(rng, &mut image.bytes, at, image.n),
        }
    }
    match rng.below(12) {
        0 => image.p += rng.pick(&[4, 8]),
        1 => image.n = rng.pick(&[1, image.n - 1, image.n + 1]),
        _ => (),
    }
}

/// Lets the first key of a block start a byte later and be a byte shorter.
fn shift_key(image: &mut [u8], at: usize) {
    let (pos, size) = if image[at + 8] == 2 { (at + 40, at + 48) } else { (at + 48, at + 40) };
    let length = get(image, size);
    if length > 0 {
        let start = get(image, pos).wrapping_add(1);
        put(image, pos, start);
        put(image, size, length - 1);
    }
}

fn judge(run: &mut Run, round: usize, image: &Image, seen: &mut Seen) {
    let expected = image.judged(&Reading);
    seen.add(expected.number, expected.fields[4]);
    let what = || format!("round {round}: judge, P {} N {}", image.p, image.n);
    run.tally.same(image.judged(run.subject), expected, what);
}

fn lookups(run: &mut Run, round: usize, image: &Image, keys: &[Vec<u8>], seen: &mut Seen) {
    let Image { bytes, p, n, root, .. } = image;
    let by_crate = search::Image::new(bytes, *p);
    let what = format!("round {round}, P {p} N {n}");
    let questions = content::questions(&mut run.rng, keys, 3);
    for key in &questions {
        let expected = compare(run, image, key, &what);
        expected.iter().for_each(|answer| seen.add(answer.number, answer.fields[6]));
        if expected[0].number == 0 {
            let hit = hit(Lookup::Full, run, bytes, (*p, *n, *root), key);
            run.tally.same(hit, Ok(by_crate.get(*root, key)), || format!("{what}: the crate's get of {key:?}"));
        }
    }
    let key = run.rng.pick(&questions);
    outside(run, image, &key, &what);
}
