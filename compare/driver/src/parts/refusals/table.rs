//! Freelist tables and meta pages that are refused.

use reading::words::TABLE_WORDS;
use subject::{ask, MetaFields};

use super::Run;

const P: u64 = 1_024;
const N: u64 = 70;
const MAX: u64 = u64::MAX;

pub fn run(run: &mut Run) {
    tables(run);
    initial_lists(run);
    frees(run);
    allocations(run);
    listing(run);
    metas(run);
}

/// All in use but 4, 5 (free) and 6 (pending under 3).
fn table() -> Vec<u64> {
    let mut table = vec![0; TABLE_WORDS];
    table[0] = 0b11_0000;
    table[512] = 0b100_0000;
    table[1_024 + 6] = 3;
    table
}

/// Numbers of every call but free_new on this table, which each of them must leave if it is refused.
fn numbers(run: &mut Run, table: &[u64], n: u64, what: &str) -> Vec<u64> {
    let subject = run.subject;
    let mut lent = table.to_vec();
    let mut numbers = Vec::new();
    type Call<'a> = &'a dyn Fn(&mut [u64]) -> u64;
    let calls: [Call; 6] = [
        &|table| ask::<0>(|answer| subject.free_init(table, n, &[2], answer)).number,
        &|table| ask::<0>(|answer| subject.free_pages(table, n, 2, 1, 0, answer)).number,
        &|table| ask::<0>(|answer| subject.release(table, n, 9, answer)).number,
        &|table| ask::<2>(|answer| subject.allocate(table, n, P, 40, answer)).number,
        &|table| ask::<1>(|answer| subject.free_size(table, n, answer)).number,
        &|table| ask::<1>(|answer| subject.free_list(table, n, &mut [0; 80], answer)).number,
    ];
    for call in calls {
        let number = call(&mut lent);
        run.tally.check(number == 0 || lent == table, || format!("{what}: table changed"));
        lent.copy_from_slice(table);
        numbers.push(number);
    }
    numbers
}

fn tables(run: &mut Run) {
    let sound = table();
    let short = &sound[..TABLE_WORDS - 1];
    for (table, n, number) in
        [(short, N, 1), (&[][..], N, 1), (&sound, 1, 1), (&sound, 32_769, 1), (&sound, MAX, 1), (&sound, N, 0)]
    {
        let got = numbers(run, table, n, "table");
        run.tally.same(got, vec![number; 6], || format!("{} words, N {n}", table.len()));
    }
    let longer = [sound, vec![7]].concat();
    let got = numbers(run, &longer, N, "a longer table");
    run.tally.same(got, vec![0; 6], || "a longer table".into());
    for page in [0, 1, 2, 63, 64, 69, 70, 32_767] {
        let mut table = table();
        table[page / 64] |= 1 << (page % 64);
        table[512 + page / 64] |= 1 << (page % 64);
        let number = if (2..N as usize).contains(&page) { 11 } else { 0 };
        let got = numbers(run, &table, N, "both bits");
        run.tally.same(got, vec![number; 6], || format!("both bits of page {page}"));
    }
    let mut table = vec![MAX; TABLE_WORDS - 1];
    let got = ask::<0>(|answer| run.subject.free_new(&mut table, answer));
    run.tally.same((got.number, table), (1, vec![MAX; TABLE_WORDS - 1]), || "free_new of a short table".into());
}

fn initial_lists(run: &mut Run) {
    let subject = run.subject;
    let lists: [(&[u64], u64); 11] = [
        (&[], 0),
        (&[2, 3, 69], 0),
        (&[1], 11),
        (&[70], 11),
        (&[3, 2], 11),
        (&[3, 3], 11),
        (&[4], 11),
        (&[6], 11),
        (&[MAX], 11),
        (&[0, 2], 11),
        (&[2, 3, 32_768], 11),
    ];
    for (ids, number) in lists {
        let mut lent = table();
        let got = ask::<0>(|answer| subject.free_init(&mut lent, N, ids, answer));
        run.tally
            .same((got.number, number == 0 || lent == table()), (number, true), || format!("initial list {ids:?}"));
    }
}

fn frees(run: &mut Run) {
    let subject = run.subject;
    let cases = [
        (2, 1, 0),
        (2, 2, 0),
        (7, 63, 0),
        (2, 0, 11),
        (1, 1, 11),
        (0, 3, 11),
        (2, 3, 11),
        (4, 1, 11),
        (6, 1, 11),
        (69, 2, 11),
        (70, 1, 11),
        (MAX, 1, 11),
        (3, MAX, 11),
        (MAX, MAX, 11),
        (7, 64, 11),
    ];
    for (first, count, number) in cases {
        let mut lent = table();
        let got = ask::<0>(|answer| subject.free_pages(&mut lent, N, first, count, MAX, answer));
        run.tally
            .same((got.number, number == 0 || lent == table()), (number, true), || format!("free {first} {count}"));
    }
}

fn allocations(run: &mut Run) {
    let subject = run.subject;
    let cases = [
        (N, P, 40, (0, [4, 70])),
        (N, P, 2 * P, (0, [4, 70])),
        (N, P, 2 * P + 1, (0, [70, 73])),
        (N, P, 0, (11, [0, 0])),
        (N, P, 39, (11, [0, 0])),
        (N, 1_020, 40, (1, [0, 0])),
        (N, 65_544, 40, (1, [0, 0])),
        (N, P, (32_768 - N) * P, (0, [70, 32_768])),
        (N, P, (32_768 - N) * P + 1, (12, [0, 0])),
        (N, P, MAX, (12, [0, 0])),
        (32_768, P, 3 * P, (12, [0, 0])),
        (32_768, P, 2 * P, (0, [4, 32_768])),
    ];
    for (n, p, bytes, expected) in cases {
        let mut lent = table();
        let got = ask::<2>(|answer| subject.allocate(&mut lent, n, p, bytes, answer));
        let left = expected.0 == 0 || lent == table();
        run.tally
            .same(((got.number, got.fields), left), (expected, true), || format!("allocate {bytes}, P {p}, N {n}"));
    }
}

fn listing(run: &mut Run) {
    let subject = run.subject;
    for (room, number, written) in
        [(3, 0, [4, 5, 6, MAX]), (4, 0, [4, 5, 6, MAX]), (2, 10, [MAX; 4]), (0, 10, [MAX; 4])]
    {
        let mut ids = [MAX; 4];
        let got = ask::<1>(|answer| subject.free_list(&table(), N, &mut ids[..room], answer));
        let count = if number == 0 { 3 } else { 0 };
        run.tally
            .same((got.number, got.fields[0], ids), (number, count, written), || format!("listing with room {room}"));
    }
    for (n, size) in [(N, 64), (6, 56), (4, 40), (2, 40)] {
        let got = ask::<1>(|answer| subject.free_size(&table(), n, answer));
        run.tally.same((got.number, got.fields[0]), (0, size), || format!("size, N {n}"));
    }
}

fn metas(run: &mut Run) {
    let subject = run.subject;
    for (length, kind, write, read) in
        [(104, 3, 0, 0), (103, 3, 1, 1), (0, 3, 1, 1), (103, 2, 1, 1), (104, 2, 3, 3), (104, 4, 3, 3), (104, 0, 3, 3)]
    {
        let mut page = vec![0xEE; length];
        page.iter_mut().skip(8).take(1).for_each(|byte| *byte = kind);
        let before = page.clone();
        let got = ask::<10>(|answer| subject.meta_read(&page, answer)).number;
        run.tally.same(got, if read == 0 { 13 } else { read }, || format!("meta_read of {length} bytes, type {kind}"));
        let got = ask::<1>(|answer| subject.meta_write(&mut page, &MetaFields::default(), answer)).number;
        let left = got == 0 || page == before;
        run.tally.same((got, left), (write, true), || format!("meta_write of {length} bytes, type {kind}"));
        let got = ask::<10>(|answer| subject.meta_read(&page, answer)).number;
        run.tally.same(got, read, || format!("meta_read of {length} bytes, type {kind}, after writing"));
    }
}
