//! Runs of edits: each goes on from the block that the one before it wrote, on both sides. So do a split's pieces.

use oracle::probe::{edit, split, write_content, Content, Item};
use subject::{ask, Branch, Leaf};

use super::{kept, lent, Run};
use crate::make::{self, block, content, fields, tree};

/// What the crate's buffers hold before it writes.
const DIRT: u8 = 0xAA;

/// One block on both sides; the crate's keeps dirt in its unset bytes.
struct Pair {
    ours: Vec<u8>,
    theirs: Vec<u8>,
}

impl Pair {
    /// What the crate wrote, and the same as it is to be on our side.
    fn new(theirs: Vec<u8>) -> Pair {
        Pair { ours: fields::unset_cleared(&theirs), theirs }
    }
}

pub fn run(run: &mut Run) {
    let mut edits = 0;
    for round in 0..run.rounds {
        let p = make::small_page_size(&mut run.rng);
        let leaf = run.rng.one_in(2);
        let mut pairs = vec![start(run, leaf, p)];
        for _ in 0..run.rng.between(30, 200) {
            let at = run.rng.below(pairs.len());
            let what = format!("round {round}, edit {edits}, P {p}");
            step(run, &mut pairs[at], leaf, p, &what);
            size(run, &pairs[at], p, &what);
            if run.rng.one_in(4) {
                let pieces = pieces(run, &pairs[at], p, &what);
                pairs.splice(at..=at, pieces);
            }
            edits += 1;
        }
    }
    println!("  runs: {edits} edits");
}

/// A first block: new, or any sound one.
fn start(run: &mut Run, leaf: bool, p: u64) -> Pair {
    if run.rng.one_in(4) {
        let (block, _) = block::sound(&mut run.rng, leaf, p);
        return Pair { ours: block.clone(), theirs: block };
    }
    let id = run.rng.between(2, 40_000);
    let (key, tag) = (content::key(&mut run.rng), run.rng.between(2, 40_000));
    let mut ours = vec![0; 2 * p as usize];
    let got = match leaf {
        true => ask::<4>(|answer| run.subject.new_leaf(p, id, &mut ours, answer)),
        false => ask::<4>(|answer| run.subject.new_branch(p, id, &key, tag, &mut ours, answer)),
    };
    let items = if leaf { Vec::new() } else { vec![Item { tag, key, value: Vec::new() }] };
    let pair = Pair::new(write_content(&Content { leaf, items }, p, id, DIRT));
    let written = (got.number, got.fields[0], ours.starts_with(&pair.ours));
    run.tally.same(written, (0, pair.ours.len() as u64, true), || format!("a new block, P {p}"));
    pair
}

fn step(run: &mut Run, pair: &mut Pair, leaf: bool, p: u64, what: &str) {
    let keys = fields::keys(&pair.ours);
    match (leaf, run.rng.below(10)) {
        (true, 0..=2) if !keys.is_empty() => delete(run, pair, p, keys.len(), what),
        (true, _) => insert(run, pair, p, &keys, what),
        (false, _) => insert_branch(run, pair, p, &keys, what),
    }
}

fn delete(run: &mut Run, pair: &mut Pair, p: u64, count: usize, what: &str) {
    let index = run.rng.below(count);
    let (subject, block) = (run.subject, pair.ours.clone());
    let written = edit::delete(&pair.theirs, p, index, DIRT).unwrap().0;
    went_on::<9>(run, pair, written, what, |out, answer| subject.delete(&block, p, index as u64, out, answer));
}

fn insert(run: &mut Run, pair: &mut Pair, p: u64, keys: &[Vec<u8>], what: &str) {
    let key = match keys.is_empty() || run.rng.one_in(2) {
        true => content::key(&mut run.rng),
        false => run.rng.pick(keys),
    };
    let entry = content::item(&mut run.rng, true, key, 128);
    let (subject, block) = (run.subject, pair.ours.clone());
    let leaf = Leaf { key: &entry.key, kind: entry.tag, value: &entry.value };
    let written = edit::insert(&pair.theirs, p, &entry, DIRT).unwrap();
    went_on::<4>(run, pair, written, what, |out, answer| subject.insert(&block, p, leaf, out, answer));
}

/// A child under a new key, or in place of another whose key stays or grows by a byte that keeps the order.
fn insert_branch(run: &mut Run, pair: &mut Pair, p: u64, keys: &[Vec<u8>], what: &str) {
    let at = run.rng.below(keys.len());
    let (new, child) = (content::key(&mut run.rng), run.rng.between(2, 40_000));
    let longer = [keys[at].as_slice(), &[0]].concat();
    let (original, key) = match run.rng.below(4) {
        0 => (Some(keys[at].as_slice()), keys[at].clone()),
        1 if !keys.contains(&longer) => (Some(keys[at].as_slice()), longer),
        _ if keys.contains(&new) => (Some(new.as_slice()), new.clone()),
        _ => (None, new.clone()),
    };
    let (subject, block) = (run.subject, pair.ours.clone());
    let branch = Branch { original, key: &key, child };
    let written = edit::insert_branch(&pair.theirs, p, original, &key, child, DIRT).unwrap();
    went_on::<4>(run, pair, written, what, |out, answer| subject.insert_branch(&block, p, branch, out, answer));
}

/// Takes the block that each side writes, after seeing that they are the same.
fn went_on<const F: usize>(
    run: &mut Run,
    pair: &mut Pair,
    written: Vec<u8>,
    what: &str,
    call: impl FnOnce(&mut [u8], &mut [u8]) -> u64,
) {
    let mut out = lent(&mut run.rng, written.len());
    let got = ask::<F>(|answer| call(&mut out, answer));
    let rest = out.split_off(written.len());
    run.tally.same((got.number, got.fields[0], kept(&rest)), (0, written.len() as u64, true), || what.into());
    *pair = Pair::new(written);
    run.tally.check(pair.ours == out, || format!("{what}: other bytes"));
}

fn size(run: &mut Run, pair: &Pair, p: u64, what: &str) {
    let got = ask::<6>(|answer| run.subject.size(&pair.ours, p, answer));
    let size = edit::size(&pair.theirs, p);
    let merging = u64::from(edit::needs_merging(&pair.theirs, p));
    run.tally
        .same((got.number, got.fields), (0, [size, size.div_ceil(p), merging, 0, 0, 0]), || format!("{what}: size"));
}

/// The cuts and the pieces of a block, which go on as blocks of their own.
fn pieces(run: &mut Run, pair: &Pair, p: u64, what: &str) -> Vec<Pair> {
    let sizes =
        split::split(&pair.theirs, p, DIRT, |_| 2).iter().map(|piece| piece.len() as u64 / p).collect::<Vec<_>>();
    let (ids, n) = tree::place(&mut run.rng, &sizes);
    let theirs = split::split(&pair.theirs, p, DIRT, |i| ids[i]);
    let counts: Vec<u64> = theirs.iter().map(|piece| fields::get(piece, 16)).collect();
    let ends: Vec<u64> = (1..counts.len()).map(|end| counts[..end].iter().sum()).collect();
    let mut cuts = vec![u64::MAX; ends.len()];
    let got = ask::<4>(|answer| run.subject.split(&pair.ours, p, &mut cuts, answer));
    run.tally
        .same((got.number, got.fields, &cuts), (0, [ends.len() as u64, 0, 0, 0], &ends), || format!("{what}: cuts"));
    let length = theirs.iter().map(Vec::len).sum::<usize>();
    let mut out = vec![0; length];
    let got = ask::<5>(|answer| run.subject.split_write(&pair.ours, p, n, &ids, &mut out, answer));
    let fields = [length as u64, theirs.len() as u64, 0, 0, 0];
    run.tally.same((got.number, got.fields), (0, fields), || format!("{what}: pieces"));
    let pairs: Vec<Pair> = theirs.into_iter().map(Pair::new).collect();
    let pieces: Vec<u8> = pairs.iter().flat_map(|pair| pair.ours.clone()).collect();
    run.tally.check(pieces == out, || format!("{what}: other pieces"));
    pairs
}
