//! Files made by the crate, then damaged: judge and both lookups beside the reading.
//! Where the judge passes a copy, every key of its tree is found.

use std::collections::BTreeMap;

use oracle::probe::meta_page::Fields;
use oracle::probe::{file, search};
use reading::block::page_block;
use subject::{Answer, Lookup};

use super::commons::Commons;
use super::files::{descend, worked, Temporary, View};
use super::hostile::change;
use super::lookups;
use super::Run;
use crate::by_reading::Reading;
use crate::make::content;
use crate::make::image::{Image, Span};
use crate::make::overlap::overlap;
use crate::make::parting::part;
use crate::make::store::Plan;
use crate::rng::Rng;

/// The last two have values of several pages, and blocks of 300.
const PLANS: [Plan; 7] = [
    Plan { pagesize: 1_024, steps: 12, puts: 20, deletes: 6, keys: 90, value: 60, nested: true },
    Plan { pagesize: 1_024, steps: 4, puts: 60, deletes: 10, keys: 200, value: 20, nested: false },
    Plan { pagesize: 1_032, steps: 12, puts: 16, deletes: 6, keys: 60, value: 300, nested: true },
    Plan { pagesize: 2_200, steps: 10, puts: 30, deletes: 9, keys: 120, value: 200, nested: true },
    Plan { pagesize: 4_096, steps: 10, puts: 30, deletes: 9, keys: 200, value: 300, nested: true },
    Plan { pagesize: 1_024, steps: 8, puts: 10, deletes: 3, keys: 40, value: 3_000, nested: true },
    Plan { pagesize: 1_024, steps: 4, puts: 4, deletes: 1, keys: 12, value: 51_200, nested: false },
];

/// Copies made of each file, and how many of them for each that is asked about again with other bytes outside.
const COPIES: usize = 2_500;
const OUTSIDE: usize = 250;

/// A file with its trees (every block, the root's first, then the freelist's) and the keys in them.
struct Made {
    image: Image,
    trees: Vec<Vec<Span>>,
    keys: Vec<Vec<u8>>,
}

/// What came of the copies: how often each number, the common beginnings of 6 and 7, the keys found in those that passed,
/// the pages of the longest block, the lookups that were refused.
#[derive(Default)]
struct Seen {
    numbers: BTreeMap<u64, u64>,
    commons: Commons,
    found: usize,
    longest: u64,
    refused: Refused,
}

/// How many lookups were refused, and how many of these the quick lookup answered all the same, with an entry or none.
#[derive(Default)]
struct Refused {
    times: u64,
    found: u64,
    absent: u64,
}

impl Refused {
    /// Adds what both lookups answered.
    fn add(&mut self, [full, quick]: [Answer<7>; 2]) {
        if full.number == 0 {
            return;
        }
        self.times += 1;
        match (quick.number, quick.fields[0]) {
            (0, 0) => self.absent += 1,
            (0, _) => self.found += 1,
            _ => {}
        }
    }

    /// Says how many there were, and that both kinds came.
    fn tell(&self, run: &mut Run) {
        let Refused { times, found, absent } = self;
        println!("  of {times} lookups refused, quick answered {found} with an entry and {absent} with none");
        run.tally.check(*found > 0 && *absent > 0, || {
            "quick answered no refused lookup with an entry, or none without".into()
        });
    }
}

pub fn run(run: &mut Run) {
    let mut seen = Seen::default();
    for round in 0..run.rounds {
        let made = made(&mut run.rng, &PLANS[round % PLANS.len()]);
        let longest = made.trees.iter().flatten().map(|(_, pages)| *pages).max();
        seen.longest = seen.longest.max(longest.unwrap_or(0));
        for copy in 0..COPIES {
            compare(run, &made, &format!("file {round}, copy {copy}"), &mut seen);
        }
    }
    let Seen { numbers, commons, found, longest, refused } = seen;
    let (copies, passed) = (numbers.values().sum::<u64>(), numbers.get(&0).copied().unwrap_or(0));
    println!("  damaged: {copies} copies, {passed} passed the judge, {found} keys found in them");
    let numbers: Vec<String> = numbers.iter().map(|(number, times)| format!("{number}: {times}")).collect();
    println!("  numbers given back by the judge: {}; blocks of up to {longest} pages", numbers.join(", "));
    commons.tell(run);
    refused.tell(run);
}

/// Damages a copy of a file and asks about it.
fn compare(run: &mut Run, made: &Made, what: &str, seen: &mut Seen) {
    let tree = run.rng.pick(&made.trees);
    let mut image = Image { root: tree[0].0, ..made.image.clone() };
    for _ in 0..run.rng.between(1, 2) {
        damage(&mut run.rng, &mut image, &tree);
    }
    if run.rng.one_in(12) {
        cut(&mut run.rng, &mut image);
    }
    lookups(run, &image, &made.keys, what, seen);
    let Answer { number, fields: [.., common] } = judged(run, &image, what);
    seen.commons.add(number, common);
    *seen.numbers.entry(number).or_default() += 1;
    if number == 0 {
        seen.found += whole(run, &image, what);
    }
}

/// A file made by the crate after this plan, with unset bytes cleared.
fn made(rng: &mut Rng, plan: &Plan) -> Made {
    let temporary = Temporary::new("damaged");
    let (db, store) = worked(rng, plan, &temporary.path);
    let tx = db.tx(false).unwrap();
    let mut view = View::new(&tx, &temporary.path);
    let buckets = store.buckets.keys().map(|names| file::root(&descend(&tx, names)));
    let roots: Vec<u64> = [view.meta.root_page].into_iter().chain(buckets).collect();
    view.clear_unset(roots.iter().copied());
    let Fields { pagesize: p, num_pages: n, freelist_page: freelist, .. } = view.meta;
    let by_crate = search::Image::new(&view.bytes, p);
    let spans = |root: &u64| [*root, freelist].into_iter().flat_map(|first| by_crate.spans(first)).collect();
    let trees = roots.iter().map(spans).collect();
    let keys = store.buckets.values().flat_map(|data| data.keys().cloned()).chain([b"A".to_vec()]).collect();
    Made { image: Image { bytes: view.bytes, p, n, root: roots[0], freelist }, trees, keys }
}

/// One kind of damage, mostly to the tree: a byte, a field, blocks that overlap, keys that begin alike, pages swapped or
/// copied, garbage, another root or freelist.
fn damage(rng: &mut Rng, image: &mut Image, tree: &[Span]) {
    let (p, n) = (image.p as usize, image.n);
    let (at, other) = (image.start(rng.pick(tree).0), rng.between(2, n - 1) as usize * p);
    match rng.below(18) {
        0 => flip(rng, &mut image.bytes),
        1..=3 => flip(rng, &mut image.bytes[at..at + 200]),
        4..=6 => change(rng, &mut image.bytes, at, n),
        7 => (0..p).for_each(|i| image.bytes.swap(at + i, other + i)),
        8 => image.bytes.copy_within(at..at + p, other),
        9 => garbage(rng, &mut image.bytes),
        10 => garbage(rng, &mut image.bytes[at..at + p]),
        11..=14 => overlap(rng, image, tree),
        15..=16 => part(rng, image, tree),
        _ if rng.one_in(2) => image.root = rng.between(0, n),
        _ => image.freelist = rng.between(0, n),
    }
}

/// Changes one bit.
fn flip(rng: &mut Rng, bytes: &mut [u8]) {
    let at = rng.below(bytes.len());
    bytes[at] ^= 1 << rng.below(8);
}

/// Cuts the end off, and at times asks about as many pages as are left.
fn cut(rng: &mut Rng, image: &mut Image) {
    let length = rng.below(image.bytes.len());
    image.bytes.truncate(length);
    if rng.one_in(2) {
        image.n = length as u64 / image.p;
    }
}

/// Puts up to 300 bytes anywhere: random ones, or all the same.
fn garbage(rng: &mut Rng, bytes: &mut [u8]) {
    let length = 1 + rng.below(300);
    let stretch = if rng.one_in(2) { rng.bytes(length) } else { vec![rng.pick(&[0, 1, 0xFF]); length] };
    let at = rng.below(bytes.len() - length);
    bytes[at..at + length].copy_from_slice(&stretch);
}

/// Some keys of the file and some others, beside the reading; at times one of them with other bytes outside.
fn lookups(run: &mut Run, image: &Image, keys: &[Vec<u8>], what: &str, seen: &mut Seen) {
    let asked: Vec<Vec<u8>> = (0..4).map(|_| run.rng.pick(keys)).collect();
    for key in content::questions(&mut run.rng, &asked, 1) {
        let expected = lookups::compare(run, image, &key, what);
        seen.refused.add(expected);
        #[cfg(feature = "proved")]
        in_c(run, image, &key, expected, what);
    }
    if run.rng.one_in(OUTSIDE) {
        lookups::outside(run, image, &asked[0], what);
    }
}

/// Holds the benchmark's lookups in plain C to what the reading answers, where every breach is 1 with all fields 0.
#[cfg(feature = "proved")]
fn in_c(run: &mut Run, image: &Image, key: &[u8], expected: [Answer<7>; 2], what: &str) {
    for (call, expected) in Lookup::BOTH.into_iter().zip(expected) {
        let expected = if expected.number == 0 { expected } else { Answer { number: 1, fields: [0; 7] } };
        let got = limit::looked(call, &image.bytes, (image.p, image.n, image.root), key);
        run.tally.same(got, expected, || format!("{what}: {} in C of {key:?}", call.name()));
    }
}

/// The judge beside the reading: its answer.
fn judged(run: &mut Run, image: &Image, what: &str) -> Answer<5> {
    let expected = image.judged(&Reading);
    run.tally.same(image.judged(run.subject), expected, || format!("{what}: judge, P {}", image.p));
    expected
}

/// Every entry of the tree is found where it stands, and as many other keys are absent: how many entries there are.
fn whole(run: &mut Run, image: &Image, what: &str) -> usize {
    let mut entries = BTreeMap::new();
    walk(image, image.root, true, &mut entries);
    let same = |run: &mut Run, key: &[u8], fields: [u64; 7]| {
        for call in Lookup::BOTH {
            let got = image.looked(call, run.subject, key);
            run.tally.same(got, Answer { number: 0, fields }, || format!("{what}: {} of {key:?}", call.name()));
        }
    };
    for (key, fields) in &entries {
        same(run, key, *fields);
        let mut absent = key.clone();
        while entries.contains_key(&absent) {
            absent.push(run.rng.next() as u8);
        }
        same(run, &absent, [0; 7]);
    }
    entries.len()
}

/// The fields that lookup is to answer for each key, by the reading's own walk over all leaves.
fn walk(image: &Image, page: u64, is_root: bool, entries: &mut BTreeMap<Vec<u8>, [u64; 7]>) {
    let block = page_block(&image.bytes, image.p, image.n, page, is_root).unwrap();
    for (entry, place) in block.entries.iter().zip(&block.places) {
        if !block.leaf {
            walk(image, entry.tag, false, entries);
            continue;
        }
        let value = page * image.p + (place + entry.key.len()) as u64;
        entries.insert(entry.key.to_vec(), [1, entry.tag, value, entry.value.len() as u64, 0, 0, 0]);
    }
}
