//! Search in one block: `index`, `index_page` and `val` beside the crate's.

use oracle::probe::{search, Item};
use subject::ask;

use super::Run;
use crate::make::{self, block, content};

pub fn run(run: &mut Run) {
    for round in 0..run.rounds {
        let p = make::page_size(&mut run.rng);
        let leaf = run.rng.one_in(2);
        let (block, content) = block::sound(&mut run.rng, leaf, p);
        let keys: Vec<Vec<u8>> = content.items.iter().map(|item| item.key.clone()).take(40).collect();
        for key in content::questions(&mut run.rng, &keys, 10) {
            index(run, round, &block, p, &key);
        }
        for i in (0..content.items.len().min(12) + 3).chain([content.items.len()]) {
            index_page(run, round, &block, p, i);
        }
        for i in (0..content.items.len() + 3).chain([usize::MAX]) {
            entry(run, round, &block, p, i);
        }
    }
}

fn index(run: &mut Run, round: usize, block: &[u8], p: u64, key: &[u8]) {
    let got = ask::<5>(|answer| run.subject.index(block, p, key, answer));
    for (i, found) in search::index(block, p, key) {
        let expected = [i as u64, u64::from(found), 0, 0, 0];
        run.tally.same((got.number, got.fields), (0, expected), || format!("round {round}: index of {key:?}, P {p}"));
    }
}

fn index_page(run: &mut Run, round: usize, block: &[u8], p: u64, i: usize) {
    let got = ask::<4>(|answer| run.subject.index_page(block, p, i as u64, answer));
    for page in search::index_page(block, p, i) {
        let expected = page.map_or((11, [0; 4]), |page| (0, [page, 0, 0, 0]));
        run.tally.same((got.number, got.fields), expected, || format!("round {round}: index_page of {i}, P {p}"));
    }
}

fn entry(run: &mut Run, round: usize, block: &[u8], p: u64, i: usize) {
    let got = ask::<9>(|answer| run.subject.entry(block, p, i as u64, answer));
    let [held, tag, key, key_length, value, value_length, rest @ ..] = got.fields;
    let part = |start, length| block[start as usize..(start + length) as usize].to_vec();
    let item = (held == 1).then(|| Item { tag, key: part(key, key_length), value: part(value, value_length) });
    let zeros = if item.is_some() { rest == [0; 3] } else { got.fields == [0; 9] };
    for val in search::val(block, p, i) {
        let expected = val.map_or((11, None, true), |item| (0, item, true));
        run.tally.same((got.number, item.clone(), zeros), expected, || format!("round {round}: entry {i}, P {p}"));
    }
}
