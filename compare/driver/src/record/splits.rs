//! Splits: the cuts, and the pieces written.

use oracle::probe::{split, write_content};

use super::blocks::{page_size, thinned};
use super::tape::{words, Call, Record, Tape};
use crate::make::{block, content, fields, tree};
use crate::rng::Rng;

pub fn record(rng: &mut Rng, tape: &mut Tape) {
    for round in 0..150 {
        let (p, leaf) = (page_size(rng), rng.one_in(2));
        let (count, size) = (rng.between(5, 16) as usize, rng.between(p, 3 * p));
        let content = match round % 3 {
            0 => block::at_limit(rng, leaf, p),
            _ => content::of_size(rng, leaf, count, size).unwrap(),
        };
        let block = write_content(&thinned(content), p, rng.between(2, 40_000), 0);
        cuts(tape, &block, p);
        if round % 2 == 0 {
            pieces(rng, tape, &block, p);
        }
    }
}

/// The list of cuts, with room for two more.
fn cuts(tape: &mut Tape, block: &[u8], p: u64) {
    let mut ends: Vec<u64> = split::split(block, p, 0, |_| 2).iter().map(|piece| fields::get(piece, 16)).collect();
    (1..ends.len()).for_each(|i| ends[i] += ends[i - 1]);
    ends.pop();
    tape.add(&Record {
        call: Call::Split,
        arguments: &[p],
        room: ends.len() + 2,
        block,
        fields: &[ends.len() as u64, 0, 0, 0],
        output: &words(&ends),
        ..Record::default()
    });
}

/// The pieces written with page numbers in any order.
fn pieces(rng: &mut Rng, tape: &mut Tape, block: &[u8], p: u64) {
    let sizes: Vec<u64> = split::split(block, p, 0, |_| 2).iter().map(|piece| piece.len() as u64 / p).collect();
    let (ids, n) = tree::place(rng, &sizes);
    let written = split::split(block, p, 0, |i| ids[i]).concat();
    tape.add(&Record {
        call: Call::SplitWrite,
        arguments: &[p, n],
        room: written.len() + rng.pick(&[0, 1, 7, 1_024]),
        block,
        other: &words(&ids),
        fields: &[written.len() as u64, ids.len() as u64, 0, 0, 0],
        output: &written,
        ..Record::default()
    });
}
