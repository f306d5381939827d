//! The cut rule and the writing of pieces, beside the crate's `split` and `write`.

use oracle::probe::free::FreeTable;
use oracle::probe::{split, write_content};
use subject::ask;

use super::{kept, lent, Run, FILLER, MAX_NODE_SIZE};
use crate::make::{self, block, content, fields, tree};

pub fn run(run: &mut Run) {
    for round in 0..run.rounds {
        let p = if run.rng.one_in(2) { make::small_page_size(&mut run.rng) } else { make::page_size(&mut run.rng) };
        let leaf = run.rng.one_in(2);
        let block = match run.rng.below(3) {
            0 => block::sound(&mut run.rng, leaf, p).0,
            1 => write_content(&block::at_limit(&mut run.rng, leaf, p), p, 2, 0),
            _ => many(run, leaf, p, round),
        };
        pieces(run, &block, p, round);
    }
}

/// A node of many entries, at times as large as 01 allows.
fn many(run: &mut Run, leaf: bool, p: u64, round: usize) -> Vec<u8> {
    let (count, size) = match round % 50 {
        0 => (3_000, MAX_NODE_SIZE + run.rng.between(0, 1)),
        _ => (run.rng.between(5, 120) as usize, run.rng.between(p, 12 * p)),
    };
    let content = content::of_size(&mut run.rng, leaf, count, size);
    let content = content.unwrap_or_else(|| content::content(&mut run.rng, leaf, count.min(80), p));
    write_content(&content, p, 2, 0)
}

fn pieces(run: &mut Run, block: &[u8], p: u64, round: usize) {
    let what = || format!("round {round}: split of {} entries, P {p}", fields::get(block, 16));
    let pieces = split::split(block, p, 0, |_| 2);
    let mut ends: Vec<u64> = pieces.iter().map(|piece| fields::get(piece, 16)).collect();
    (1..ends.len()).for_each(|i| ends[i] += ends[i - 1]);
    ends.pop();
    let too_large = oracle::probe::edit::size(block, p) > MAX_NODE_SIZE;
    cuts(run, block, p, &ends, too_large, &what);
    let sizes: Vec<u64> = pieces.iter().map(|piece| piece.len() as u64 / p).collect();
    let (ids, n) = tree::place(&mut run.rng, &sizes);
    if n <= 32_768 {
        placed(run, block, p, n, &ids, too_large, &what);
    }
    if !too_large {
        by_freelist(run, block, p, &what);
    }
}

/// The list of cuts, with room to spare and with too little.
fn cuts(run: &mut Run, block: &[u8], p: u64, expected: &[u64], too_large: bool, what: &impl Fn() -> String) {
    let untouched = u64::MAX;
    let mut list = vec![untouched; expected.len() + 2];
    let got = ask::<4>(|answer| run.subject.split(block, p, &mut list, answer));
    if too_large {
        run.tally.same((got.number, got.fields, list[0]), (15, [0; 4], untouched), what);
        return;
    }
    run.tally.same((got.number, got.fields), (0, [expected.len() as u64, 0, 0, 0]), what);
    run.tally.same(list, [expected, &[untouched; 2]].concat(), what);
    if let Some(short) = expected.len().checked_sub(1) {
        let mut list = vec![untouched; short];
        let got = ask::<4>(|answer| run.subject.split(block, p, &mut list, answer));
        run.tally.same((got.number, got.fields, list), (10, [0; 4], vec![untouched; short]), what);
    }
}

/// The pieces written with page numbers of ours.
fn placed(run: &mut Run, block: &[u8], p: u64, n: u64, ids: &[u64], too_large: bool, what: &impl Fn() -> String) {
    let expected = split::split(block, p, 0, |i| ids[i]).concat();
    let mut out = lent(&mut run.rng, expected.len());
    let subject = run.subject;
    let got = ask::<5>(|answer| subject.split_write(block, p, n, ids, &mut out, answer));
    if too_large {
        run.tally.same((got.number, got.fields, kept(&out)), (15, [0; 5], true), what);
        return;
    }
    let fields = [expected.len() as u64, ids.len() as u64, 0, 0, 0];
    run.tally.same((got.number, got.fields), (0, fields), what);
    run.tally.check(out.starts_with(&expected), || format!("{}: other bytes", what()));
    run.tally.check(kept(&out[expected.len()..]), || format!("{}: output beyond", what()));
    let mut short = vec![FILLER; expected.len() - 1];
    let got = ask::<5>(|answer| subject.split_write(block, p, n, ids, &mut short, answer));
    run.tally.same((got.number, got.fields, kept(&short)), (10, [0; 5], true), what);
    let longer = [ids, &[n - 1]].concat();
    for list in [&longer, &ids[1..]] {
        let got = ask::<5>(|answer| subject.split_write(block, p, n, list, &mut short, answer));
        run.tally.same((got.number, got.fields, kept(&short)), (11, [0; 5], true), what);
    }
}

/// The pieces written by the crate into pages that its own freelist gives.
fn by_freelist(run: &mut Run, block: &[u8], p: u64, what: &impl Fn() -> String) {
    let first_new = run.rng.between(4, 60);
    let free: Vec<u64> = (2..first_new).filter(|_| run.rng.one_in(2)).collect();
    let mut table = FreeTable::new(p, first_new);
    table.init(&free);
    let written = split::split_into(block, p, &mut table);
    let (ids, n) = (written.iter().map(|(id, _)| *id).collect::<Vec<_>>(), table.num_pages());
    if n > 32_768 {
        return;
    }
    let whole = |mut piece: Vec<u8>| {
        piece.resize(piece.len().next_multiple_of(p as usize), 0);
        fields::unset_cleared(&piece)
    };
    let expected: Vec<u8> = written.into_iter().flat_map(|(_, piece)| whole(piece)).collect();
    let mut out = vec![FILLER; expected.len()];
    let got = ask::<5>(|answer| run.subject.split_write(block, p, n, &ids, &mut out, answer));
    run.tally.same((got.number, out == expected), (0, true), || format!("{} by the freelist, ids {ids:?}", what()));
}
