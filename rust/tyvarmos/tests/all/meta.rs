//! The choice of the meta page, beside a plain reading of its rule.

use std::collections::BTreeMap;

use reading::layout::put_u64;
use reading::newest::newest;
use tyvarmos::{Fault, Geometry, Image, Meta, Number};

use crate::damage::damage;
use crate::rng::Rng;
use crate::small::{self, put_meta};

/// Meta page, page size, page count, root page, freelist page, next number and transaction.
type Fields = [u64; 7];

/// The fields of a meta, or the number that refuses it.
fn fields(meta: Result<Meta, Fault>) -> Result<Fields, u64> {
    let of = |m: Meta| [m.meta_page, m.page_size, m.page_count, m.root_page, m.freelist_page, m.next_int, m.tx_id];
    meta.map(of).map_err(|fault| fault.number.code())
}

/// The same of the reading's meta.
fn read((page, m): (u64, reading::meta::Meta)) -> Fields {
    [page, m.pagesize, m.num_pages, m.root_page, m.freelist_page, m.next_int, m.tx_id]
}

/// Checks the newest meta, and answers it.
fn check(bytes: &[u8], p: Option<u64>) -> Result<Fields, u64> {
    let got = match p {
        Some(p) => Meta::with_page_size(bytes, p),
        None => Meta::of(bytes),
    };
    let wanted = newest(bytes, p.unwrap_or(0)).map(read).map_err(|fault| fault.number);
    assert_eq!(fields(got), wanted, "{p:?}, {} bytes", bytes.len());
    if let Err(fault) = got {
        assert_eq!((fault.page, fault.element), (None, None));
        assert!(fault.number != Number::Geometry || fault.geometry.is_some(), "{p:?}, {} bytes", bytes.len());
    }
    wanted
}

/// Checks each meta page by itself, and answers how many can be used.
fn check_both(bytes: &[u8], p: Option<u64>) -> Option<usize> {
    let both = match p {
        Some(p) => Meta::both_with_page_size(bytes, p),
        None => Meta::both(bytes),
    };
    let newest = check(bytes, p);
    let metas = match both {
        Ok(metas) => metas,
        Err(fault) => {
            assert_eq!(Err(fault.number.code()), newest);
            return None;
        }
    };
    assert_eq!(fields(metas.newest), newest);
    let size = metas.page_size;
    for (page, meta) in (0..).zip(metas.pages) {
        let own = bytes.get((page * size) as usize..((page + 1) * size) as usize);
        let wanted = own.map_or(Err(1), |own| match reading::meta::read(own) {
            Ok((meta, _)) if meta.pagesize == size => Ok(read((page, meta))),
            Ok(_) => Err(11),
            Err(fault) => Err(fault.number),
        });
        assert_eq!(fields(meta), wanted, "page {page} of {size}, {} bytes", bytes.len());
    }
    let usable = metas.pages.iter().filter(|meta| meta.is_ok()).count();
    assert_eq!(metas.unusable().is_some(), usable == 1);
    Some(usable)
}

#[test]
fn damaged_meta_pages() {
    let mut rng = Rng::new(4);
    let mut seen: BTreeMap<String, usize> = BTreeMap::new();
    let mut usable: BTreeMap<Option<usize>, usize> = BTreeMap::new();
    for _ in 0..1_500 {
        let p = rng.pick(&[1_024, 1_032, 2_000, 4_096, 65_528, 65_536]);
        let mut bytes = vec![0; 2 * p as usize + rng.below(200)];
        for page in 0..2 {
            put_meta(&mut bytes, page, p, 40, rng.pick(&[1, 2, 2, u64::MAX]));
        }
        for at in [0, p as usize] {
            if rng.one_in(6) {
                put_meta(&mut bytes[at..], 0, rng.pick(&[0, 1_000, 1_024, 65_544, u64::MAX]), 40, 9);
            }
        }
        for at in [0, p as usize] {
            match rng.below(6) {
                0 => damage(&mut rng, &mut bytes[at..at + 1_024], 1_024),
                1 => bytes[at..at + 104].fill(0),
                _ => {}
            }
        }
        let length = if rng.one_in(8) { rng.below(bytes.len()) } else { bytes.len() };
        for given in [None, Some(p), Some(rng.pick(&[1_024, 1_025, 1_032, 131_072]))] {
            let answer = match check(&bytes[..length], given) {
                Ok(fields) => format!("page {}", fields[0]),
                Err(number) => number.to_string(),
            };
            *seen.entry(answer).or_default() += 1;
            *usable.entry(check_both(&bytes[..length], given)).or_default() += 1;
        }
    }
    for answer in ["page 0", "page 1", "1", "3", "11", "13"] {
        assert!(seen.get(answer).is_some_and(|times| *times >= 10), "{answer}: {seen:?}");
    }
    for count in [None, Some(0), Some(1), Some(2)] {
        assert!(usable.get(&count).is_some_and(|times| *times >= 10), "{count:?}: {usable:?}");
    }
}

#[test]
fn page_size_is_found_without_the_first_page() {
    for p in [1_024_u64, 1_032, 4_096, 65_536] {
        let mut bytes = vec![0; 3 * p as usize];
        put_meta(&mut bytes, 1, p, 3, 8);
        let meta = Meta::of(&bytes).unwrap();
        assert_eq!((meta.meta_page, meta.page_size, meta.tx_id), (1, p, 8));
    }
}

#[test]
fn the_greater_transaction_is_taken_and_page_1_at_a_tie() {
    for (first, second, taken) in [(5, 6, 1), (6, 5, 0), (6, 6, 1), (u64::MAX, 0, 0)] {
        let mut bytes = vec![0; 2_048];
        put_meta(&mut bytes, 0, 1_024, 2, first);
        put_meta(&mut bytes, 1, 1_024, 2, second);
        assert_eq!(Meta::of(&bytes).unwrap().meta_page, taken);
    }
}

#[test]
fn a_refused_meta_names_no_page() {
    let number = |bytes: &[u8]| Meta::of(bytes).unwrap_err();
    assert_eq!(number(&[]), Geometry::NoMeta { held: 0 }.into());
    assert_eq!(number(&[0; 4_096]), Fault::new(Number::Header));
    let mut bytes = small::image();
    put_u64(&mut bytes, 96, 0);
    put_u64(&mut bytes, 1_024 + 96, 0);
    assert_eq!(number(&bytes).to_string(), "the hash of the meta page is wrong (13)");
    assert_eq!(Image::of_file(&bytes).unwrap_err().number, Number::Hash);
    assert_eq!(Meta::with_page_size(&small::image(), 0).unwrap_err(), Geometry::PageSize { page_size: 0 }.into());
    assert_eq!(Meta::with_page_size(&small::image(), 1_032).unwrap_err(), Fault::new(Number::Argument));
}

#[test]
fn each_meta_page_says_what_is_wrong_with_it() {
    let whole = small::image();
    let newer = Meta::both(&whole).unwrap();
    assert_eq!(newer.pages.map(|meta| meta.unwrap().tx_id), [5, 6]);
    assert_eq!((newer.newest, newer.unusable()), (newer.pages[1], None));

    let mut bytes = whole.clone();
    bytes[1_024 + 8] = 2;
    let older = Meta::both(&bytes).unwrap();
    assert_eq!((older.newest, older.pages[0]), (newer.pages[0], newer.pages[0]));
    assert_eq!(older.unusable(), Some((1, Fault::new(Number::Header))));

    put_u64(&mut bytes, 56, 4);
    assert_eq!(Meta::both(&bytes).unwrap_err(), Fault::new(Number::Hash));
    let given = Meta::both_with_page_size(&bytes, 1_024).unwrap();
    assert_eq!(given.pages, [Number::Hash, Number::Header].map(|number| Err(Fault::new(number))));
    assert_eq!((given.newest, given.unusable()), (Err(Fault::new(Number::Hash)), None));
}

#[test]
fn a_file_shorter_than_two_pages_has_its_first_meta() {
    let whole = small::image();
    let short = Meta::both(&whole[..1_500]).unwrap();
    let held = Fault::from(Geometry::TooFewBytes { held: 1_500, page_size: 1_024, page_count: 2 });
    assert_eq!((short.page_size, short.newest), (1_024, Err(held)));
    assert_eq!(short.pages, [Meta::both(&whole).unwrap().pages[0], Err(held)]);
    assert_eq!(held.to_string(), "the bytes hold 1,500 of the 2,048 that 2 pages of 1,024 take (1)");
    let fault = Meta::both(&whole[..103]).unwrap_err();
    assert_eq!(fault.to_string(), "the bytes hold 103 of the 104 that a meta page takes at least (1)");
}

#[test]
fn a_page_size_that_is_not_taken_is_a_limit() {
    let mut bytes = vec![0; 4 * 131_072];
    for page in 0..2 {
        put_meta(&mut bytes, page, 131_072, 4, page);
    }
    let sentence = "the page size is 131,072; this version takes multiples of 8 from 1,024 to 65,536";
    let found = Meta::of(&bytes).unwrap_err();
    assert_eq!((found.to_string(), found.is_limit()), (format!("{sentence} (11)"), true));
    assert_eq!(Meta::both(&bytes).unwrap_err(), found);
    let given = Meta::with_page_size(&bytes, 131_072).unwrap_err();
    assert_eq!((given.to_string(), given.is_limit()), (format!("{sentence} (1)"), true));
    assert_eq!(Meta::both_with_page_size(&bytes, 131_072).unwrap_err(), given);
    assert!(!Meta::with_page_size(&small::image(), 2_048).unwrap_err().is_limit());
}
