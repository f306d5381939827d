//! Differences in the freelist.

use oracle::probe::free::FreeTable;
use reading::words::TABLE_WORDS;
use subject::ask;

use super::Run;

const P: u64 = 1_024;

pub fn run(run: &mut Run) {
    freed_twice(run);
    freed_outside(run);
    unsorted(run);
    without_end(run);
    listed_not_in_use(run);
}

fn free(run: &Run, table: &mut [u64], n: u64, first: u64, count: u64) -> u64 {
    ask::<0>(|answer| run.subject.free_pages(table, n, first, count, 1, answer)).number
}

/// 8. A page freed twice is listed twice; 01 says 11.
fn freed_twice(run: &mut Run) {
    let (mut by_crate, mut table) = (FreeTable::new(P, 4), vec![0; TABLE_WORDS]);
    by_crate.free(2, 1, 1);
    by_crate.free(2, 1, 1);
    run.tally.same((by_crate.pages(), by_crate.size()), (vec![2, 2], 56), || "finding 8, the crate".into());
    let got = [free(run, &mut table, 4, 2, 1), free(run, &mut table, 4, 2, 1)];
    run.tally.same(got, [0, 11], || "finding 8".into());
}

/// 9. Meta pages, pages past the end and no pages at all can be freed in a release build; 01 says 11.
fn freed_outside(run: &mut Run) {
    for (first, count, listed) in [(1, 1, vec![1]), (4, 1, vec![4]), (2, 0, vec![])] {
        let (mut by_crate, mut table) = (FreeTable::new(P, 4), vec![0; TABLE_WORDS]);
        by_crate.free(first, count, 1);
        run.tally.same(by_crate.pages(), listed, || "finding 9, the crate".into());
        let got = free(run, &mut table, 4, first, count);
        run.tally.same(got, 11, || "finding 9".into());
    }
}

/// 10. An initial list in any order, or with a page twice, is taken; 01 says 11.
fn unsorted(run: &mut Run) {
    for (ids, listed) in [([3, 2], vec![2, 3]), ([2, 2], vec![2])] {
        let (mut by_crate, mut table) = (FreeTable::new(P, 4), vec![0; TABLE_WORDS]);
        by_crate.init(&ids);
        run.tally.same(by_crate.pages(), listed, || "finding 10, the crate".into());
        let got = ask::<0>(|answer| run.subject.free_init(&mut table, 4, &ids, answer));
        run.tally.same(got.number, 11, || "finding 10".into());
    }
}

/// 11. The file grows without end; 01 says 12 above 32,768 pages.
fn without_end(run: &mut Run) {
    let (mut by_crate, mut table) = (FreeTable::new(P, 32_768), vec![0; TABLE_WORDS]);
    run.tally.same(by_crate.allocate(40), Some((32_768, 32_769)), || "finding 11, the crate".into());
    let got = ask::<2>(|answer| run.subject.allocate(&mut table, 32_768, P, 40, answer));
    run.tally.same((got.number, got.fields), (12, [0; 2]), || "finding 11".into());
}

/// 18. An initial list may name a page that is not in use, which is then listed twice; 01 says 11.
fn listed_not_in_use(run: &mut Run) {
    let (mut by_crate, mut table) = (FreeTable::new(P, 4), vec![0; TABLE_WORDS]);
    by_crate.free(2, 1, 1);
    by_crate.init(&[2]);
    run.tally.same(by_crate.pages(), vec![2, 2], || "finding 18, the crate".into());
    let freed = free(run, &mut table, 4, 2, 1);
    let got = ask::<0>(|answer| run.subject.free_init(&mut table, 4, &[2], answer));
    run.tally.same((freed, got.number), (0, 11), || "finding 18".into());
}
