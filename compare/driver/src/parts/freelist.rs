//! Histories of the freelist beside the crate's `Freelist` and `TxFreelist::allocate`.

use oracle::probe::free::FreeTable;
use reading::freelist::State;
use reading::words::{load, TABLE_WORDS};
use subject::ask;

use super::Run;
use crate::make;

/// A table of the subject and the crate's, kept in step.
struct History {
    table: Vec<u64>,
    by_crate: FreeTable,
    n: u64,
    p: u64,
    log: Vec<String>,
}

pub fn run(run: &mut Run) {
    for round in 0..run.rounds {
        let most = if round % 20 == 0 { 32_768 } else { 90 };
        let mut history = start(run, most);
        for _ in 0..40 {
            step(run, &mut history);
            listed(run, &history);
        }
    }
}

/// A new table with an initial list.
fn start(run: &mut Run, most: u64) -> History {
    let (p, n) = (make::page_size(&mut run.rng), run.rng.between(2, most));
    let mut table = run.rng.bytes(TABLE_WORDS).into_iter().map(u64::from).collect::<Vec<_>>();
    let got = ask::<0>(|answer| run.subject.free_new(&mut table, answer));
    let all = load(&table).unwrap().states.iter().all(|state| *state == State::InUse);
    run.tally.same((got.number, all), (0, true), || "new table".into());
    let ids: Vec<u64> = (2..n).filter(|_| run.rng.one_in(3)).collect();
    let got = ask::<0>(|answer| run.subject.free_init(&mut table, n, &ids, answer));
    run.tally.same(got.number, 0, || format!("initial list {ids:?}"));
    let mut by_crate = FreeTable::new(p, n);
    by_crate.init(&ids);
    History { table, by_crate, n, p, log: vec![format!("P {p}, N {n}, free {ids:?}")] }
}

fn step(run: &mut Run, history: &mut History) {
    match run.rng.below(10) {
        0..=3 => free(run, history),
        4 => release(run, history),
        _ => allocate(run, history),
    }
}

/// Frees a run of pages, which is refused unless all of them are in use.
fn free(run: &mut Run, history: &mut History) {
    let first = run.rng.between(0, history.n + 1);
    let count = run.rng.pick(&[0, 1, 1, 1, 2, 3, 5]);
    let t = run.rng.pick(&[0, 1, 2, 3, 5, u64::MAX]);
    let states = load(&history.table).unwrap().states;
    let inside = count > 0 && first >= 2 && first + count <= history.n;
    let allowed = inside && states[first as usize..(first + count) as usize].iter().all(|state| *state == State::InUse);
    let before = history.table.clone();
    let got = ask::<0>(|answer| run.subject.free_pages(&mut history.table, history.n, first, count, t, answer));
    history.log.push(format!("free {first} {count} under {t}"));
    run.tally.same(got.number, if allowed { 0 } else { 11 }, || history.log.join(", "));
    match allowed {
        true => history.by_crate.free(first, count, t),
        false => run.tally.check(before == history.table, || format!("{}: table changed", history.log.join(", "))),
    }
}

fn release(run: &mut Run, history: &mut History) {
    let t = run.rng.pick(&[0, 1, 2, 3, 4, 6, u64::MAX]);
    let got = ask::<0>(|answer| run.subject.release(&mut history.table, history.n, t, answer));
    history.by_crate.release(t);
    history.log.push(format!("release {t}"));
    run.tally.same(got.number, 0, || history.log.join(", "));
}

fn allocate(run: &mut Run, history: &mut History) {
    let pages = run.rng.pick(&[0, 1, 1, 1, 2, 2, 3, 4, 7]);
    let bytes = run.rng.pick(&[39, 40, history.p * pages, history.p * pages + 1, history.p * pages + 41]);
    let got = ask::<2>(|answer| run.subject.allocate(&mut history.table, history.n, history.p, bytes, answer));
    history.log.push(format!("allocate {bytes}"));
    let log = || history.log.join(", ");
    if got.number == 12 {
        let full = history.n + bytes.div_ceil(history.p) > 32_768;
        run.tally.same((full, got.fields), (true, [0; 2]), log);
        return;
    }
    let expected = history.by_crate.allocate(bytes);
    let answer = expected.map_or((11, [0; 2]), |(start, n)| (0, [start, n]));
    run.tally.same((got.number, got.fields), answer, log);
    history.n = expected.map_or(history.n, |(_, n)| n);
}

/// Both lists and sizes are the same.
fn listed(run: &mut Run, history: &History) {
    let expected = history.by_crate.pages();
    let mut ids = vec![u64::MAX; expected.len() + 1];
    let got = ask::<1>(|answer| run.subject.free_list(&history.table, history.n, &mut ids, answer));
    let spare = ids.pop();
    let log = || history.log.join(", ");
    run.tally.same((got.number, got.fields[0], spare), (0, expected.len() as u64, Some(u64::MAX)), log);
    run.tally.same(ids, expected, log);
    let got = ask::<1>(|answer| run.subject.free_size(&history.table, history.n, answer));
    run.tally.same((got.number, got.fields[0]), (0, history.by_crate.size()), log);
}
