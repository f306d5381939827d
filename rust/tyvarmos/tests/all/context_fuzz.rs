//! The context of faults in thousands of damaged images: there is no crash, and what it says holds of the bytes.

use std::collections::BTreeMap;
use std::ffi::OsStr;

use reading::common::common_length;
use reading::layout::{header, u64_at, BRANCH, FREELIST, LEAF};

use crate::damage::damage;
use crate::example;
use crate::files::{run, Temporary};
use crate::json::{self, Value};
use crate::rng::Rng;
use crate::small::{self, P};

/// The key of an element that is sound.
fn key(bytes: &[u8], page: u64, element: u64) -> &[u8] {
    let start = (page * P) as usize;
    let leaf = header(&bytes[start..]).kind == LEAF;
    let (size, pos_at, size_at) = if leaf { (32, 8, 16) } else { (24, 16, 8) };
    let at = start + 32 + element as usize * size;
    let from = at + u64_at(bytes, at + pos_at) as usize;
    &bytes[from..from + u64_at(bytes, at + size_at) as usize]
}

/// The page that a place names, by the bytes: its path is followed from the root.
fn named(bytes: &[u8], root: u64, place: &Value) -> u64 {
    let mut page = root;
    for step in place["path"].list() {
        assert_eq!(step["page"].number(), Some(page));
        let start = (page * P) as usize;
        assert_eq!(header(&bytes[start..]).kind, BRANCH);
        page = u64_at(bytes, start + 32 + 24 * step["element"].number().unwrap() as usize);
    }
    if let Some(byte) = place["byte"].number().filter(|_| place["as"].text() == "child") {
        assert_eq!(u64_at(bytes, byte as usize), page);
    }
    page
}

/// Checks the range of a fault with 7: its ends are separators, and the key is outside.
fn check_range(bytes: &[u8], told: &Value, page: u64, element: u64) {
    let range = &told["context"]["range"];
    let end = |end: &Value| {
        let separator = key(bytes, end["page"].number().unwrap(), end["element"].number().unwrap());
        let digits: String = separator.iter().map(|byte| format!("{byte:02x}")).collect();
        assert_eq!(end["key_hex"].text(), digits);
        separator.to_vec()
    };
    let key = key(bytes, page, element);
    let crossed = end(&range[range["crossed"].text()]);
    assert_eq!(range["crossed"].text() == "low", key < crossed.as_slice());
    assert_eq!(told["common"].number(), Some(common_length(key, &crossed)));
    check_keys(told, &[key]);
}

/// Checks the keys of a fault with 6, which are not told of free ids.
fn check_order(bytes: &[u8], told: &Value, page: u64, element: u64) {
    if header(&bytes[(page * P) as usize..]).kind == FREELIST {
        assert!(told["common"].number() == Some(0) && !told["context"].has("keys"), "{told:?}");
        return;
    }
    let (before, key) = (key(bytes, page, element - 1), key(bytes, page, element));
    assert!(key <= before);
    assert_eq!(told["common"].number(), Some(common_length(key, before)));
    check_keys(told, &[before, key]);
}

/// Checks that these keys are told.
fn check_keys(told: &Value, keys: &[&[u8]]) {
    let digits = |key: &[u8]| key.iter().map(|byte| format!("{byte:02x}")).collect::<String>();
    let shown: Vec<&str> = told["context"]["keys_hex"].list().iter().map(Value::text).collect();
    assert_eq!(shown, keys.iter().map(|key| digits(key)).collect::<Vec<_>>());
}

/// The page that a place names, by the bytes or as the freelist page.
fn first_page(bytes: &[u8], told: &Value, place: &Value) -> u64 {
    match place["as"].text() {
        "freelist" => told["freelist"].number().unwrap(),
        _ => named(bytes, told["root"].number().unwrap(), place),
    }
}

/// Checks the blocks of a fault with 8, which is in the block that starts with a page: each has the page in question.
fn check_twice(bytes: &[u8], told: &Value, page: u64, first: u64) {
    let context = &told["context"];
    let in_use = context["page_in_use"].number().unwrap();
    let extent = |block: &Value| {
        let (first, last) = (block["first_page"].number().unwrap(), block["last_page"].number().unwrap());
        assert_eq!(header(&bytes[(first * P) as usize..]).overflow, last - first);
        assert!((first..=last).contains(&in_use), "{told:?}");
        first
    };
    let blocks: Vec<u64> = context["used_by"].list().iter().map(extent).collect();
    assert_eq!(first_page(bytes, told, &context["first_named_by"]), blocks[0]);
    match told["element"].number() {
        Some(i) => {
            assert_eq!((page, blocks.len()), (first, 1));
            assert_eq!(u64_at(bytes, (page * P) as usize + 32 + 8 * i as usize), in_use);
        }
        None => {
            assert_eq!((page, &blocks[1..]), (in_use, [first].as_slice()));
            assert_ne!(context["named_by"], context["first_named_by"]);
        }
    }
}

/// Checks what is told about one damaged image, and answers the number.
fn check(bytes: &[u8], told: &Value) -> u64 {
    if matches!(told["verdict"].text(), "sound" | "absent") {
        return 0;
    }
    let (number, page) = (told["number"].number().unwrap(), told["page"].number());
    if !told.has("context") {
        assert!(page.is_none(), "{told:?}");
        return number;
    }
    let (page, context) = (page.unwrap(), &told["context"]);
    let first = first_page(bytes, told, &context["named_by"]);
    if number == 8 {
        check_twice(bytes, told, page, first);
    } else {
        assert_eq!(first, page, "{told:?}");
    }
    assert_eq!(context.has("cause"), matches!(number, 2..=6 | 8), "{told:?}");
    match (number, told["element"].number()) {
        (6, Some(element)) => check_order(bytes, told, page, element),
        (7, Some(element)) => check_range(bytes, told, page, element),
        _ => assert_eq!(told["common"].number(), Some(0)),
    }
    if context.has("header") {
        let start = (first * P) as usize;
        assert_eq!(context["page_byte"].number(), Some(start as u64));
        assert_eq!(context["header"]["count"].number(), Some(header(&bytes[start..]).count));
    }
    number
}

/// A damaged copy, at times with a branch that names pages at random, so that there are cycles.
fn damaged(rng: &mut Rng) -> Vec<u8> {
    let mut bytes = small::image();
    damage(rng, &mut bytes[2 * P as usize..], P as usize);
    if rng.one_in(2) {
        let branch = rng.pick(&[3, 7]) * P as usize;
        let element = rng.below(3);
        let page = rng.pick(&[3, 3, 7, 7, 2, 4, 5, 8, 10, 12, u64::MAX]);
        bytes[branch + 32 + 24 * element..][..8].copy_from_slice(&page.to_le_bytes());
    }
    bytes
}

/// Judges images with these words, checks what is told about each, and adds the numbers.
fn check_all(images: &[Vec<u8>], words: &[&str], numbers: &mut BTreeMap<u64, usize>) {
    let name = |i: usize| format!("fuzz-{i}");
    let files: Vec<Temporary> = images.iter().enumerate().map(|(i, bytes)| Temporary::file(&name(i), bytes)).collect();
    let words = ["judge", "--json", "--jobs=2"].iter().chain(words).map(OsStr::new);
    let done = run(&words.chain(files.iter().map(Temporary::word)).collect::<Vec<_>>());
    assert!(matches!(done.status, 0..=2) && done.err.is_empty(), "{}", done.err);
    let told = json::lines(done.text());
    assert_eq!(told.len(), images.len());
    for ((bytes, told), file) in images.iter().zip(&told).zip(&files) {
        assert_eq!(told["file"].text(), file.path.to_str().unwrap());
        *numbers.entry(check(bytes, told)).or_default() += 1;
    }
}

fn check_seen(numbers: &BTreeMap<u64, usize>, wanted: &[u64]) {
    for number in wanted {
        assert!(numbers.get(number).is_some_and(|times| *times >= 20), "{number}: {numbers:?}");
    }
}

#[test]
fn what_is_told_holds_of_the_bytes() {
    let mut rng = Rng::new(6);
    let mut numbers = BTreeMap::new();
    for _ in 0..12 {
        let images: Vec<Vec<u8>> = (0..400).map(|_| damaged(&mut rng)).collect();
        check_all(&images, &[], &mut numbers);
    }
    check_seen(&numbers, &[0, 2, 3, 4, 5, 6, 7, 8]);
}

#[test]
fn what_is_told_of_a_bucket_holds_of_the_bytes() {
    let mut rng = Rng::new(8);
    let mut numbers = BTreeMap::new();
    for _ in 0..10 {
        let mut images = vec![example(); 100];
        for bytes in &mut images {
            for _ in 0..1 + rng.below(15) {
                damage(&mut rng, &mut bytes[2 * P as usize..146 * P as usize], P as usize);
            }
        }
        check_all(&images, &["--bucket=characters"], &mut numbers);
    }
    check_seen(&numbers, &[0, 3, 4, 5, 6, 7, 8]);
}

#[test]
fn lookups_in_damaged_images_tell_their_way() {
    let mut rng = Rng::new(7);
    let mut faults = 0;
    for _ in 0..400 {
        let bytes = damaged(&mut rng);
        let file = Temporary::file("fuzz-get", &bytes);
        let key = rng.pick(&small::KEYS);
        let words = ["get", "--json"].map(OsStr::new);
        let told =
            json::parse(run(&[words.as_slice(), &[file.word(), OsStr::new("--"), OsStr::new(key)]].concat()).text());
        if told["verdict"].text() == "refused" {
            faults += 1;
            let page = told["page"].number().unwrap();
            assert_eq!(named(&bytes, small::ROOT, &told["context"]["named_by"]), page, "{told:?}");
        }
    }
    assert!(faults >= 50, "{faults}");
}
