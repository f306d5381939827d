//! Damaged images: the same verdict and the same lookups as the plain reading, and no crash.

use std::collections::{BTreeMap, BTreeSet};

use reading::judge::judge;
use reading::layout::put_u64;
use reading::lookup::{lookup, Found};
use tyvarmos::{Fault, Image, Kind, Meta, Number};

use crate::damage::damage;
use crate::listing::Listed;
use crate::rng::Rng;
use crate::{example, small};

const COUNT_AT: usize = 16;

/// How often each number was given, and the common beginnings that came with it.
type Numbers = BTreeMap<u64, (usize, BTreeSet<u64>)>;

/// Adds the number of an answer, and its common beginning.
fn add<T>(numbers: &mut Numbers, answer: Result<T, Fault>) {
    let (number, common) = answer.map_or_else(|fault| (fault.number.code(), fault.common), |_| (0, 0));
    let (times, commons) = numbers.entry(number).or_default();
    *times += 1;
    commons.insert(common);
}

/// The numbers of an image: page size, page count, root, freelist page.
type Sizes = [u64; 4];

fn image(bytes: &[u8], sizes: Sizes) -> Image<'_> {
    Image::new(bytes, small::tree(sizes))
}

/// The wrapper's fault as the plain reading's, where 0 stands for none; what it names fits its number.
fn plain(fault: Fault) -> reading::Fault {
    let named = (fault.page.is_some(), fault.element.is_some());
    match fault.number.code() {
        1 => assert_eq!((named, fault.geometry.is_some()), ((false, false), true)),
        2..=4 | 9 => assert_eq!(named, (true, false)),
        5..=7 => assert_eq!(named, (true, true)),
        _ => assert!(named.0 && fault.number == Number::ReachedTwice),
    }
    let (page, element) = (fault.page.unwrap_or(0), fault.element.unwrap_or(0));
    reading::Fault { number: fault.number.code(), page, element, common: fault.common }
}

/// The plain reading's find as the wrapper's.
fn listed(bytes: &[u8], found: Found) -> Listed<'_> {
    let (place, length) = (found.place as usize, found.length as usize);
    let kind = if found.kind == 0 { Kind::Data } else { Kind::Bucket };
    Listed { kind, value: &bytes[place..place + length], place }
}

/// Checks the judge's verdict and adds its number.
fn check_judge(bytes: &[u8], sizes: Sizes, numbers: &mut Numbers) {
    let [p, n, root, freelist] = sizes;
    let judged = image(bytes, sizes).judge().map(|sound| (sound.entries(), sound.pages()));
    let read = judge(bytes, p, n, root, freelist).map(|sound| (sound.entries, sound.pages));
    assert_eq!(judged.map_err(plain), read, "{sizes:?}");
    assert_eq!(image(bytes, sizes).geometry().is_err(), read.is_err_and(|fault| fault.number == 1), "{sizes:?}");
    if let Err(Fault { number: Number::ReachedTwice, page, element, .. }) = judged {
        let is_id = page == Some(freelist) && passes_without_ids(bytes, sizes);
        assert_eq!(element.is_some(), is_id, "{sizes:?}");
    }
    add(numbers, judged);
}

/// Whether the judge passes the image with no free id listed, so that an id was all that it refused.
fn passes_without_ids(bytes: &[u8], sizes: Sizes) -> bool {
    let [p, _, _, freelist] = sizes;
    let mut bytes = bytes.to_vec();
    put_u64(&mut bytes, (freelist * p) as usize + COUNT_AT, 0);
    image(&bytes, sizes).judge().is_ok()
}

/// Checks a lookup, and `get` where the image is sound, and adds the number.
fn check_lookup(bytes: &[u8], sizes: Sizes, key: &[u8], numbers: &mut Numbers) {
    let [p, n, root, _] = sizes;
    let image = image(bytes, sizes);
    let looked = image.lookup(key);
    let read = lookup(bytes, p, n, root, key).map(|found| found.map(|found| listed(bytes, found)));
    assert_eq!(looked.map(|entry| entry.map(Listed::from)).map_err(plain), read, "{sizes:?}, {key:?}");
    if let Ok(sound) = image.judge() {
        assert_eq!(Ok(sound.get(key)), looked, "{sizes:?}, {key:?}");
    }
    add(numbers, looked);
}

/// The sizes, at times with one of them changed.
fn changed(rng: &mut Rng, sizes: Sizes) -> Sizes {
    let mut sizes = sizes;
    if rng.one_in(12) {
        let i = rng.below(4);
        let near = sizes[i].wrapping_add(rng.pick(&[1, 2, 8, u64::MAX, u64::MAX - 1]));
        sizes[i] = rng.pick(&[0, 1, 2, 5, 7, 1_024, 1_025, 1_032, 32_769, u64::MAX, near, near, near]);
    }
    sizes
}

/// The bytes, at times without their end.
fn cut<'a>(rng: &mut Rng, bytes: &'a [u8]) -> &'a [u8] {
    let length = if rng.one_in(40) { rng.below(bytes.len()) } else { bytes.len() };
    &bytes[..length]
}

/// Checks that each of these numbers was given often enough to mean something.
fn check_seen(numbers: &Numbers, wanted: impl Iterator<Item = u64>) {
    for number in wanted {
        let times = numbers.get(&number).map_or(0, |(times, _)| *times);
        assert!(times >= 20, "number {number} was given {times} times: {numbers:?}");
    }
}

#[test]
fn damaged_copies_of_a_small_image() {
    let whole = small::image();
    let (mut judged, mut looked) = (Numbers::new(), Numbers::new());
    let mut rng = Rng::new(1);
    let mut bytes = whole.clone();
    for _ in 0..60_000 {
        bytes.copy_from_slice(&whole);
        damage(&mut rng, &mut bytes, small::P as usize);
        let sizes = changed(&mut rng, [small::P, small::N, small::ROOT, small::FREELIST]);
        let lent = cut(&mut rng, &bytes);
        check_judge(lent, sizes, &mut judged);
        for _ in 0..3 {
            let key = rng.pick(&small::KEYS);
            check_lookup(lent, sizes, key.as_bytes(), &mut looked);
        }
    }
    check_seen(&judged, 0..=8);
    check_seen(&looked, 0..=6);
}

#[test]
fn damaged_copies_of_the_example() {
    let whole = example();
    let meta = Meta::of(&whole).unwrap();
    let main = meta.image(&whole);
    let characters = main.bucket(b"characters").unwrap().unwrap();
    let bags = characters.bucket(b"bags").unwrap().unwrap();
    let keys: Vec<Vec<u8>> = crate::listing::entries(characters).into_iter().map(|(key, _)| key).collect();
    let (mut judged, mut looked) = (Numbers::new(), Numbers::new());
    let mut rng = Rng::new(2);
    let mut bytes = whole.clone();
    for _ in 0..2_000 {
        bytes.copy_from_slice(&whole);
        for _ in 0..1 + rng.below(20) {
            damage(&mut rng, &mut bytes, small::P as usize);
        }
        let root = rng.pick(&[main, characters, bags].map(|image| image.tree().root_page));
        let sizes = [meta.page_size, meta.page_count, root, meta.freelist_page];
        check_judge(&bytes, sizes, &mut judged);
        for _ in 0..3 {
            check_lookup(&bytes, sizes, &keys[rng.below(keys.len())], &mut looked);
        }
    }
    check_seen(&judged, [0, 3, 4, 5, 6, 7, 8].into_iter());
    check_seen(&looked, [0, 3, 5].into_iter());
    let commons = [&judged[&6], &judged[&7], &looked[&6]].map(|(_, commons)| commons.len());
    assert!(commons.iter().all(|count| *count >= 10), "{commons:?}");
}

#[test]
fn random_bytes() {
    let (mut judged, mut looked) = (Numbers::new(), Numbers::new());
    let mut rng = Rng::new(3);
    let mut bytes = vec![0; 8 * small::P as usize];
    for _ in 0..2_000 {
        rng.fill(&mut bytes);
        for page in 2..8 {
            let kind = rng.pick(&[1, 2, 4]);
            let count = rng.below(4) as u64;
            small::put_header(&mut bytes[page * small::P as usize..], page as u64, kind, count);
        }
        let sizes = [small::P, 8, 2 + rng.below(6) as u64, 2 + rng.below(6) as u64];
        check_judge(&bytes, sizes, &mut judged);
        check_lookup(&bytes, sizes, b"key", &mut looked);
    }
    check_seen(&judged, [3, 4, 5].into_iter());
    check_seen(&looked, [0, 3, 4, 5].into_iter());
}
