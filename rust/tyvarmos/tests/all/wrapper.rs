//! The wrapper on sound images.

use std::error::Error;
use std::hash::Hash;

use tyvarmos::{Bucket, Entry, Fault, Geometry, Image, Kind, Meta, Metas, Number, Sound, Tree};

use crate::listing::{entries, Listed};
use crate::{example, small};

/// The example's trees: the main one and every bucket's.
fn trees(bytes: &[u8]) -> Vec<Sound<'_>> {
    let main = Image::of_file(bytes).unwrap().judge().unwrap();
    let bucket = |tree: Sound<'_>, name: &[u8]| tree.bucket(name).map(|image| image.tree().root_page);
    let roots = [b"accounts".as_slice(), b"auctions", b"characters", b"world"].map(|name| bucket(main, name).unwrap());
    let characters = main.image().with_root_page(roots[2]).judge().unwrap();
    let bags = bucket(characters, b"bags").unwrap();
    let others = roots.into_iter().chain([bags]).map(|root| main.image().with_root_page(root).judge().unwrap());
    [main].into_iter().chain(others).collect()
}

#[test]
fn every_entry_of_the_example_is_found() {
    let bytes = example();
    let counts: Vec<u64> = trees(&bytes).iter().map(Sound::entries).collect();
    assert_eq!(counts, [4, 60, 0, 301, 2, 107]);
    for sound in trees(&bytes) {
        let listed = entries(sound.image());
        assert_eq!(listed.len() as u64, sound.entries());
        for (key, entry) in &listed {
            assert_eq!(sound.get(key).map(Listed::from), Some(*entry));
            assert_eq!(sound.image().lookup(key), Ok(sound.get(key)));
        }
    }
}

#[test]
fn keys_near_those_of_the_example_are_absent() {
    let bytes = example();
    for sound in trees(&bytes) {
        let keys: Vec<Vec<u8>> = entries(sound.image()).into_iter().map(|(key, _)| key).collect();
        for key in &keys {
            for near in [[key.as_slice(), b"!"].concat(), [b"\0".as_slice(), key].concat(), key[1..].to_vec()] {
                assert_eq!(sound.get(&near).is_some(), keys.contains(&near), "{near:?}");
                assert_eq!(sound.image().lookup(&near), Ok(sound.get(&near)), "{near:?}");
            }
        }
        assert_eq!(sound.get(b""), None);
        assert_eq!(sound.get(&[0xFF; 5_000]), None);
    }
}

#[test]
fn values_are_parts_of_the_image() {
    let bytes = example();
    let world = Image::of_file(&bytes).unwrap().bucket(b"world").unwrap().unwrap().judge().unwrap();
    let map = world.get(b"map").unwrap();
    assert_eq!(map.value.len(), 4_860);
    assert_eq!(map.value.as_ptr(), bytes[map.place..].as_ptr());
    assert_eq!(world.get(b"motto").unwrap().value, b"Hold the wall.");
}

#[test]
fn counts_of_the_small_image() {
    let bytes = small::image();
    let sound = small::of(&bytes).judge().unwrap();
    assert_eq!((sound.entries(), sound.pages()), (12, 8));
    assert_eq!(Image::of_file(&bytes).unwrap().judge().unwrap().entries(), 12);
}

#[test]
fn buckets_and_values_are_told_apart() {
    let bytes = small::image();
    let sound = small::of(&bytes).judge().unwrap();
    let quay = sound.get(b"quay").unwrap();
    let Bucket { root_page, next_int, .. } = quay.bucket().unwrap();
    assert_eq!((quay.kind, root_page, next_int), (Kind::Bucket, 10, 1));
    assert_eq!(sound.bucket(b"quay").unwrap().judge().unwrap().entries(), 4);
    let data = sound.get(b"q").unwrap();
    assert_eq!((data.kind, data.bucket(), data.value), (Kind::Data, None, b"qqqqq".as_slice()));
    assert!(sound.bucket(b"q").is_none() && sound.bucket(b"nothing").is_none());
    assert_eq!(small::of(&bytes).bucket(b"q").map(|image| image.is_some()), Ok(false));
    let mut sixteen = quay;
    sixteen.kind = Kind::Data;
    assert_eq!((sixteen.value.len(), sixteen.bucket()), (16, None));
}

#[test]
fn any_numbers_may_be_given() {
    let bytes = small::image();
    let most = u64::MAX;
    for [page_size, page_count] in [[most, most], [0, 0], [1_024, most], [most, 12], [65_536, 32_768], [1_028, 4]] {
        let image = Image::new(&bytes, small::tree([page_size, page_count, 3, 2]));
        let fault = image.judge().unwrap_err();
        assert_eq!((fault, image.lookup(b"ab")), (image.geometry().unwrap_err().into(), Err(fault)));
    }
    let image = Image::new(&bytes, small::tree([1_024, 12, most, most]));
    assert_eq!(image.judge().unwrap_err(), Fault::at_page(Number::PageNumber, most));
    assert_eq!(image.lookup(b"").unwrap_err(), Fault::at_page(Number::PageNumber, most));
    assert_eq!(small::of(&[]).judge().unwrap_err().number, Number::Geometry);
    let freelist = Image::new(&bytes, small::tree([1_024, 12, 3, most]));
    assert_eq!(freelist.judge().unwrap_err(), Fault::at_page(Number::PageNumber, most));
    assert!(freelist.lookup(b"ab").unwrap().is_some());
}

#[test]
fn a_limit_is_told_from_damage() {
    let bytes = vec![0; 32_769 * 1_024];
    let fault = |bytes: &[u8], sizes: [u64; 2]| {
        let fault = Image::new(bytes, small::tree([sizes[0], sizes[1], 3, 2])).judge().unwrap_err();
        assert_eq!(fault.number, Number::Geometry);
        (fault.to_string(), fault.is_limit())
    };
    let limits = [
        ([1_024, 32_769], "the page count is 32,769; this version takes 2 to 32,768 (1)"),
        ([1_023, 9], "the page size is 1,023; this version takes multiples of 8 from 1,024 to 65,536 (1)"),
        ([1_028, 9], "the page size is 1,028; this version takes multiples of 8 from 1,024 to 65,536 (1)"),
        ([65_544, 9], "the page size is 65,544; this version takes multiples of 8 from 1,024 to 65,536 (1)"),
    ];
    for (sizes, sentence) in limits {
        assert_eq!(fault(&bytes, sizes), (sentence.to_string(), true));
    }
    let damages = [
        ([1_024, 1], "the page count is 1; this version takes 2 to 32,768 (1)"),
        ([1_032, 32_768], "the bytes hold 33,555,456 of the 33,816,576 that 32,768 pages of 1,032 take (1)"),
        ([1_024, 32_770], "the bytes hold 33,555,456 of the 33,556,480 that 32,770 pages of 1,024 take (1)"),
    ];
    for (sizes, sentence) in damages {
        assert_eq!(fault(&bytes, sizes), (sentence.to_string(), false));
    }
    assert!(Image::new(&bytes, small::tree([1_024, 32_768, 3, 2])).geometry().is_ok());
    assert!(!small::of(&small::image()[..2_000]).judge().unwrap_err().is_limit());
    assert!(!Fault::at_page(Number::Header, 3).is_limit());
}

#[test]
fn more_bytes_than_the_pages_take_are_ignored() {
    let mut bytes = small::image();
    bytes.extend([0xAA; 777]);
    assert_eq!(small::of(&bytes).judge().unwrap().entries(), 12);
    assert_eq!(small::of(&bytes[..bytes.len() - 778]).judge().unwrap_err().number, Number::Geometry);
}

#[test]
fn bytes_may_start_anywhere() {
    let whole = small::image();
    for shift in 1..8 {
        let mut bytes = vec![0; shift];
        bytes.extend(&whole);
        let sound = small::of(&bytes[shift..]).judge().unwrap();
        assert_eq!(sound.get(b"tt").unwrap().value, b"tttttttttt");
    }
}

#[test]
fn a_sound_image_may_be_shared_by_threads() {
    let bytes = small::image();
    let sound = small::of(&bytes).judge().unwrap();
    let found = std::thread::scope(|scope| {
        let threads = [b"ab".as_slice(), b"zz"].map(|key| scope.spawn(move || sound.get(key).is_some()));
        threads.map(|thread| thread.join().unwrap())
    });
    assert_eq!(found, [true, false]);
}

#[test]
fn an_image_is_shown_without_its_bytes() {
    let bytes = small::image();
    let shown = format!("{:?}", small::of(&bytes));
    let tree = "Tree { page_size: 1024, page_count: 12, root_page: 3, freelist_page: 2 }";
    assert_eq!(shown, format!("Image {{ bytes: 12288, tree: {tree} }}"));
}

/// What every answer type is.
const fn plain_data<T: Copy + std::fmt::Debug + Eq + Hash + Send + Sync>() {}
const fn shared<T: Copy + std::fmt::Debug + Send + Sync>() {}
const fn error<T: Error + Send + Sync + 'static>() {}

const _: () = {
    plain_data::<Fault>();
    plain_data::<Number>();
    plain_data::<Geometry>();
    plain_data::<Tree>();
    plain_data::<Meta>();
    plain_data::<Metas>();
    plain_data::<Kind>();
    plain_data::<Bucket>();
    plain_data::<Entry<'_>>();
    shared::<Image<'_>>();
    shared::<Sound<'_>>();
    error::<Fault>();
    error::<Geometry>();
};
