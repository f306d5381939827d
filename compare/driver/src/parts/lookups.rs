//! Both lookups of a key: held to the reading and to each other, in the crate's words, and with bytes changed that the
//! quick one does not look at.

use oracle::probe::search::Hit;
use reading::quick::quick_places;
use subject::{Answer, Lookup};

use super::Run;
use crate::by_reading::Reading;
use crate::make::image::Image;
use crate::rng::Rng;

/// Holds both lookups of a key to the reading's, and the quick one to the full one where that does not refuse. What the
/// reading answers, full and quick.
pub fn compare(run: &mut Run, image: &Image, key: &[u8], what: &str) -> [Answer<7>; 2] {
    let expected = Lookup::BOTH.map(|call| image.looked(call, &Reading, key));
    let got = Lookup::BOTH.map(|call| image.looked(call, run.subject, key));
    for (i, call) in Lookup::BOTH.into_iter().enumerate() {
        run.tally.same(got[i], expected[i], || format!("{what}: {} of {key:?}", call.name()));
    }
    let [full, quick] = got;
    if full.number == 0 {
        run.tally.same(quick, full, || format!("{what}: quick beside lookup of {key:?}"));
    }
    expected
}

/// Holds the quick lookup of a key to its answer when every byte that it does not look at is another.
pub fn outside(run: &mut Run, image: &Image, key: &[u8], what: &str) {
    let Image { bytes, p, n, root, .. } = image;
    let places = quick_places(bytes, *p, *n, *root, key);
    let changed = Image { bytes: changed_outside(&mut run.rng, bytes, &places), ..*image };
    let [before, after] = [image, &changed].map(|image| image.looked(Lookup::Quick, run.subject, key));
    run.tally.same(after, before, || format!("{what}: quick of {key:?} with other bytes outside {places:?}"));
}

/// The bytes, each of them another, but for those in these places, each a start and a length.
fn changed_outside(rng: &mut Rng, bytes: &[u8], places: &[(u64, u64)]) -> Vec<u8> {
    let noise = rng.bytes(bytes.len());
    let mut changed: Vec<u8> = bytes.iter().zip(noise).map(|(byte, noise)| byte ^ (noise | 1)).collect();
    for (start, length) in places {
        let place = *start as usize..(start + length) as usize;
        changed[place.clone()].copy_from_slice(&bytes[place]);
    }
    changed
}

/// The subject's lookup in the crate's words: the entry, nothing, or the number of a refusal.
pub fn hit(call: Lookup, run: &Run, image: &[u8], numbers: (u64, u64, u64), key: &[u8]) -> Result<Option<Hit>, u64> {
    let got = call.by(run.subject, image, numbers, key);
    match (got.number, got.fields) {
        (0, [0, 0, 0, 0, 0, 0, 0]) => Ok(None),
        (0, [1, kind, place, length, 0, 0, 0]) => {
            let value = image[place as usize..(place + length) as usize].to_vec();
            Ok(Some(Hit { kind, place, value }))
        }
        (number, _) => Err(number),
    }
}
