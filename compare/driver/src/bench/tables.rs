//! Allocation and FNV-1a, beside the crate's.

use std::hint::black_box;

use oracle::probe::free::FreeTable;
use oracle::probe::meta_page;
use proved::Proved;
use reading::words::TABLE_WORDS;
use subject::Subject;

use super::timing::{grouped, keep, Race, Table};
use crate::rng::Rng;

const P: u64 = 4_096;
const N: u64 = 30_000;
const CALLS: usize = 100;

/// Times allocation in tables with few, many and scattered free pages, and the hash.
pub fn run(table: &mut Table) {
    let mut rng = Rng::new(3);
    let few: Vec<u64> = (0..200).map(|i| 100 + i * 149).collect();
    let half: Vec<u64> = (2..N).filter(|_| rng.one_in(2)).collect();
    let front: Vec<u64> = (2..N / 4).collect();
    allocate(table, "one page, 200 of 30,000 free", &few, 1);
    allocate(table, "one page, the first quarter free", &front, 1);
    allocate(table, "one page, every other free", &half, 1);
    allocate(table, "ten pages, every other free", &half, 10);
    for length in [60, 1 << 20] {
        fnv(table, &rng.bytes(length));
    }
}

fn allocate(table: &mut Table, which: &str, ids: &[u64], pages: u64) {
    let mut words = vec![0; TABLE_WORDS];
    Proved.free_new(&mut words, &mut []);
    assert_eq!(Proved.free_init(&mut words, N, ids, &mut []), 0, "an initial list");
    let mut by_crate = FreeTable::new(P, N);
    by_crate.init(ids);
    let race = Race { call: format!("allocate, {which}"), peer: "TxFreelist::allocate", times: CALLS, goal: Some(1.0) };
    let bytes = pages * P;
    table.race_with(
        race,
        || words.clone(),
        |words| (0..CALLS).for_each(|_| keep(Proved.allocate(words, N, P, bytes, &mut [0; 16]))),
        || by_crate.copy(),
        |free| (0..CALLS).for_each(|_| keep(free.allocate(bytes))),
    );
}

fn fnv(table: &mut Table, bytes: &[u8]) {
    let times = 1 + 100_000 / bytes.len();
    let call = format!("FNV-1a of {} bytes", grouped(bytes.len()));
    let race = Race { call, peer: "the crate's hasher", times, goal: Some(1.05) };
    table.race(
        race,
        || (0..times).for_each(|_| keep(Proved.fnv1a(black_box(bytes), &mut [0; 8]))),
        || (0..times).for_each(|_| keep(meta_page::fnv1a(black_box(bytes)))),
    );
}
