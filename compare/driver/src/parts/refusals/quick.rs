//! Order 5: what the quick lookup answers by the elements that halving looks at, and that it sees nothing of the others.

use oracle::probe::{write_content, Content, Item};
use subject::Lookup;

use super::image::{changed, Change, LEFT, MAX, N, P, RIGHT, ROOT};
use super::Run;

/// Seven keys, and the elements that halving looks at for each, in turn: the middle of 0 to 7 is 3, of 0 to 3 it is 1, of
/// 4 to 7 it is 5.
const KEYS: [&str; 7] = ["a", "b", "c", "d", "e", "f", "g"];
const LOOKS: [&[usize]; 7] = [&[3, 1, 0], &[3, 1], &[3, 1, 2], &[3], &[3, 5, 4], &[3, 5], &[3, 5, 6]];

/// The same for a key below all seven, one after each but the last, and one above all.
const GAPS: [&str; 8] = ["", "aa", "bb", "cc", "dd", "ee", "ff", "gg"];
const GAP_LOOKS: [&[usize]; 8] =
    [&[3, 1, 0], &[3, 1, 0], &[3, 1, 2], &[3, 1, 2], &[3, 5, 4], &[3, 5, 4], &[3, 5, 6], &[3, 5, 6]];

/// A number, and the fields of the answer.
type Told = (u64, [u64; 7]);

pub fn run(run: &mut Run) {
    passed_by(run);
    out_of_order(run);
    every_element(run, &KEYS, &LOOKS);
    every_element(run, &GAPS, &GAP_LOOKS);
}

/// Holds the quick lookup to an answer.
fn looked(run: &mut Run, image: &[u8], key: &str, expected: Told, what: &str) {
    let got = Lookup::Quick.by(run.subject, image, (P, N, 2), key.as_bytes());
    run.tally.same((got.number, got.fields), expected, || format!("quick of {key}: {what}"));
}

/// An element refused.
fn refused(page: u64, element: u64) -> Told {
    (5, [0, 0, 0, 0, page, element, 0])
}

/// An entry found, of this kind, whose value starts at a place.
fn found(kind: u64, place: usize, length: u64) -> Told {
    (0, [1, kind, place as u64, length, 0, 0, 0])
}

const ABSENT: Told = (0, [0; 7]);

/// Of two elements the second is looked at first; of the root's, m. The full lookup refuses each of these with 5.
fn passed_by(run: &mut Run) {
    let (b, c, z) = (found(0, LEFT + 97, 1), found(0, LEFT + 99, 2), found(1, RIGHT + 99, 16));
    let cases: [(Change, [Told; 3]); 10] = [
        (&[(LEFT + 40, 63)], [refused(3, 0), c, z]),
        (&[(LEFT + 40, MAX)], [refused(3, 0), c, z]),
        (&[(LEFT + 56, MAX - 90)], [refused(3, 0), c, z]),
        (&[(LEFT + 32, 2)], [refused(3, 0), c, z]),
        (&[(LEFT + 88, 926)], [refused(3, 1), refused(3, 1), z]),
        (&[(LEFT + 64, 1)], [refused(3, 1), refused(3, 1), z]),
        (&[(LEFT + 16, 31)], [refused(3, 15), refused(3, 15), z]),
        (&[(RIGHT + 88, 15)], [b, c, refused(4, 1)]),
        (&[(ROOT + 48, MAX)], [refused(2, 0), refused(2, 0), z]),
        (&[(ROOT + 72, 0)], [refused(2, 1), refused(2, 1), refused(2, 1)]),
    ];
    for (change, expected) in cases {
        let image = changed(change);
        for (key, expected) in ["b", "c", "z"].into_iter().zip(expected) {
            looked(run, &image, key, expected, &format!("{change:?}"));
        }
    }
}

/// Keys out of order, which the full lookup refuses with 6: found where halving comes by, missed elsewhere.
fn out_of_order(run: &mut Run) {
    let second = found(0, LEFT + 99, 2);
    let cases: [(Change, &str, Told); 7] = [
        (&[(LEFT + 96, 0x61_31_62)], "a", second),
        (&[(LEFT + 96, 0x61_31_62)], "b", ABSENT),
        (&[(LEFT + 96, 0x61_31_62)], "c", ABSENT),
        (&[(LEFT + 96, 0x62_31_62)], "b", second),
        (&[(LEFT + 96, 0x62_31_62)], "c", ABSENT),
        (&[(ROOT + 80, 0x61_62)], "c", ABSENT),
        (&[(ROOT + 80, 0x61_62)], "z", found(1, RIGHT + 99, 16)),
    ];
    for (change, key, expected) in cases {
        looked(run, &changed(change), key, expected, &format!("{change:?}"));
    }
}

/// A root branch of the seven keys to leaf 3, which has them too.
fn seven() -> Vec<u8> {
    let item = |tag| move |key: &&str| Item { tag, key: key.as_bytes().to_vec(), value: Vec::new() };
    let branch = Content { leaf: false, items: KEYS.iter().map(item(3)).collect() };
    let leaf = Content { leaf: true, items: KEYS.iter().map(item(0)).collect() };
    let mut image = vec![0; (N * P) as usize];
    image[ROOT..LEFT].copy_from_slice(&write_content(&branch, P, 2, 0));
    image[LEFT..RIGHT].copy_from_slice(&write_content(&leaf, P, 3, 0));
    image
}

/// Each element of the branch, then of the leaf, broken: it is refused where halving looks at it, and not seen elsewhere.
fn every_element(run: &mut Run, keys: &[&str], looks: &[&[usize]]) {
    let sound = seven();
    for (key, looks) in keys.iter().zip(looks) {
        let at = KEYS.iter().position(|other| other == key);
        let whole = at.map_or(ABSENT, |at| found(0, LEFT + 32 + 7 * 32 + at + 1, 0));
        looked(run, &sound, key, whole, "nothing broken");
        for i in 0..KEYS.len() {
            let elements = [(2, ROOT + 32 + 24 * i + 23), (3, LEFT + 32 + 32 * i)];
            for (page, byte) in elements {
                let mut image = sound.clone();
                image[byte] = 0xFF;
                let expected = if looks.contains(&i) { refused(page, i as u64) } else { whole };
                looked(run, &image, key, expected, &format!("element {i} of page {page} broken"));
            }
        }
    }
}
