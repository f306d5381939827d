//! Short inputs, every one of them.

use oracle::probe::free::FreeTable;
use oracle::probe::{meta_page, search, split, write_content, Content, Item};
use reading::words::TABLE_WORDS;
use subject::ask;

use super::Run;
use crate::make::fields::get;

const P: u64 = 1_024;

pub fn run(run: &mut Run) {
    hashes(run);
    for letters in [[b'a', b'b'], [0, 0xFF]] {
        searches(run, letters);
    }
    for leaf in [true, false] {
        (4..=8).for_each(|count| splits(run, leaf, count));
    }
    histories(run, &mut Vec::new(), &vec![0; TABLE_WORDS], 6);
    metas(run);
}

/// The hash of every string of up to 2 bytes.
fn hashes(run: &mut Run) {
    let one = (0..=255).map(|byte: u8| vec![byte]);
    let two = (0..=u16::MAX).map(|bytes| bytes.to_be_bytes().to_vec());
    for bytes in [Vec::new()].into_iter().chain(one).chain(two) {
        let got = ask::<1>(|answer| run.subject.fnv1a(&bytes, answer));
        run.tally.same((got.number, got.fields), (0, [meta_page::fnv1a(&bytes)]), || format!("fnv1a of {bytes:?}"));
    }
}

/// Every key of up to 2 letters, looked for in every block of up to 3 of them.
fn searches(run: &mut Run, [a, b]: [u8; 2]) {
    let mut keys = vec![vec![], vec![a], vec![b], vec![a, a], vec![a, b], vec![b, a], vec![b, b]];
    keys.sort();
    let chosen = (0..1_usize << keys.len()).filter(|set| set.count_ones() <= 3);
    for (leaf, set) in chosen.flat_map(|set| [(true, set), (false, set)]).filter(|(leaf, set)| *leaf || *set > 0) {
        let present = keys.iter().enumerate().filter(|(i, _)| set >> i & 1 == 1);
        let item = |(i, key): (usize, &Vec<u8>)| Item {
            tag: if leaf { 0 } else { 2 + i as u64 },
            key: key.clone(),
            value: Vec::new(),
        };
        let block = write_content(&Content { leaf, items: present.map(item).collect() }, P, 5, 0);
        for key in &keys {
            let got = ask::<5>(|answer| run.subject.index(&block, P, key, answer));
            for (i, found) in search::index(&block, P, key) {
                let expected = (0, [i as u64, u64::from(found), 0, 0, 0]);
                run.tally.same((got.number, got.fields), expected, || format!("index of {key:?} in {set:b}"));
            }
        }
    }
}

/// The cuts of every node of so many entries, with payloads that add up to the threshold or to one more.
fn splits(run: &mut Run, leaf: bool, count: u32) {
    let payloads: [usize; 4] = if leaf { [1, 171, 204, 205] } else { [1, 187, 212, 213] };
    for choice in 0..4_usize.pow(count) {
        let payload = |i: u32| payloads[choice / 4_usize.pow(i) % 4];
        let item = |i: u32| {
            let (first, rest) = (vec![i as u8], vec![0; payload(i) - 1]);
            let (key, value) = if leaf { (first, rest) } else { ([first, rest].concat(), Vec::new()) };
            Item { tag: if leaf { 0 } else { 9 }, key, value }
        };
        let block = write_content(&Content { leaf, items: (0..count).map(item).collect() }, P, 5, 0);
        let counts: Vec<u64> = split::split(&block, P, 0, |_| 2).iter().map(|piece| get(piece, 16)).collect();
        let ends: Vec<u64> = (1..counts.len()).map(|end| counts[..end].iter().sum()).collect();
        let mut cuts = [0; 8];
        let got = ask::<4>(|answer| run.subject.split(&block, P, &mut cuts, answer));
        let expected = (0, [ends.len() as u64, 0, 0, 0], ends.as_slice());
        run.tally.same((got.number, got.fields, &cuts[..ends.len()]), expected, || {
            format!("split of {:?}, leaf {leaf}", (0..count).map(payload).collect::<Vec<_>>())
        });
    }
}

/// A call on a freelist.
#[derive(Clone, Copy, Debug)]
enum Step {
    Free(u64, u64, u64),
    Release(u64),
    Allocate(u64),
}

const STEPS: [Step; 7] = [
    Step::Free(2, 1, 1),
    Step::Free(3, 2, 2),
    Step::Free(5, 1, 1),
    Step::Release(2),
    Step::Release(3),
    Step::Allocate(P),
    Step::Allocate(P + 1),
];

/// Every history of up to 5 calls from N = 6 on; a call that is refused ends its history.
fn histories(run: &mut Run, history: &mut Vec<Step>, table: &[u64], n: u64) {
    if history.len() == 5 {
        return;
    }
    for step in STEPS {
        history.push(step);
        let mut by_crate = FreeTable::new(P, 6);
        let answers: Vec<[u64; 2]> = history.iter().map(|step| replayed(&mut by_crate, *step)).collect();
        let mut after = table.to_vec();
        match asked(run, &mut after, n, step) {
            (0, fields) => {
                run.tally.same(fields, answers[history.len() - 1], || format!("{history:?}"));
                listed(run, &after, &by_crate, history);
                histories(run, history, &after, by_crate.num_pages());
            }
            (number, _) => {
                let twice = by_crate.pages().windows(2).any(|pair| pair[0] == pair[1]);
                run.tally.check(number == 11 && twice && after == table, || format!("{history:?}: {number}"));
            }
        }
        history.pop();
    }
}

/// The call on the crate's freelist, with the fields of an allocation.
fn replayed(table: &mut FreeTable, step: Step) -> [u64; 2] {
    match step {
        Step::Free(first, count, t) => table.free(first, count, t),
        Step::Release(t) => table.release(t),
        Step::Allocate(bytes) => return table.allocate(bytes).map_or([0; 2], |(start, n)| [start, n]),
    }
    [0; 2]
}

/// The call on the subject's, with the fields of an allocation.
fn asked(run: &Run, table: &mut [u64], n: u64, step: Step) -> (u64, [u64; 2]) {
    match step {
        Step::Free(first, count, t) => {
            (ask::<0>(|answer| run.subject.free_pages(table, n, first, count, t, answer)).number, [0; 2])
        }
        Step::Release(t) => (ask::<0>(|answer| run.subject.release(table, n, t, answer)).number, [0; 2]),
        Step::Allocate(bytes) => {
            let got = ask::<2>(|answer| run.subject.allocate(table, n, P, bytes, answer));
            (got.number, got.fields)
        }
    }
}

/// Both lists and sizes are the same.
fn listed(run: &mut Run, table: &[u64], by_crate: &FreeTable, history: &[Step]) {
    let (expected, n) = (by_crate.pages(), by_crate.num_pages());
    let mut ids = vec![u64::MAX; expected.len()];
    let list = ask::<1>(|answer| run.subject.free_list(table, n, &mut ids, answer));
    let size = ask::<1>(|answer| run.subject.free_size(table, n, answer));
    let got = (list.number, ids, size.number, size.fields[0]);
    run.tally.same(got, (0, expected, 0, by_crate.size()), || format!("{history:?}: list"));
}

/// A meta that the crate wrote, cut to every length: only the whole of it is read.
fn metas(run: &mut Run) {
    let mut page = vec![0; 104];
    page[8] = 3;
    let fields = meta_page::Fields { meta_page: 1, pagesize: P, num_pages: 6, tx_id: 9, ..Default::default() };
    let (page, hash) = meta_page::write(&page, &fields).unwrap();
    for length in 0..=page.len() {
        let got = ask::<10>(|answer| run.subject.meta_read(&page[..length], answer));
        let expected = match length {
            104 => (0, super::meta::numbers(&fields, hash)),
            _ => (1, [0; 10]),
        };
        run.tally.same((got.number, got.fields), expected, || format!("a meta of {length} bytes"));
    }
}
