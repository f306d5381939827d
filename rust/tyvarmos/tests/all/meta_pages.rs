//! What the command says about a file's two meta pages.

use crate::files::{run, run_on, Temporary};
use crate::json::{self, Value};
use crate::{example, EXAMPLE};

/// The example with a bit flipped in meta page 0 or 1.
fn flipped(page: usize) -> Temporary {
    let mut bytes = example();
    bytes[1_024 * page + 72] ^= 1;
    Temporary::file(&format!("flipped-{page}"), &bytes)
}

const OLDER: &str = "an older transaction is read, 9, from meta page 0: meta page 1, which names 10, cannot be used: \
                     the hash of the meta page is wrong (13)";

#[test]
fn stat_shows_both_meta_pages() {
    let stat = run(&["stat", EXAMPLE]);
    let numbers = "146 pages of 1024 bytes, next number 4";
    assert!(stat.text().contains(&format!("  meta 0    transaction 9, root page 144, freelist page 145, {numbers}\n")));
    assert!(stat.text().contains(&format!("  meta 1    transaction 10, root page 65, freelist page 66, {numbers}\n")));
    let broken = run_on("stat", &flipped(1), &[]);
    assert!(broken.text().contains("  meta 1    cannot be used: the hash of the meta page is wrong (13)\n"));
    let says =
        "it says: type 3, transaction 10, root page 65, freelist page 66, 147 pages of 1024 bytes, next number 4";
    assert!(broken.text().contains(&format!("            {says}, hash bac411c7b2e8f999 where its fields have ")));
    assert!(broken.text().contains(&format!("  warning   {OLDER}\n")));
}

#[test]
fn an_older_transaction_is_not_read_in_silence() {
    let file = flipped(1);
    let judge = run_on("judge", &file, &[]);
    assert_eq!((judge.status, judge.text().lines().nth(1)), (0, Some(format!("  warning   {OLDER}").as_str())));
    let get = run_on("get", &file, &["motto", "--bucket", "world"]);
    assert_eq!((get.status, get.text()), (0, "Hold the wall."));
    assert_eq!(get.err, format!("tyvarmos: {}: warning: {OLDER}\n", file.path.display()));
    for words in [["judge"].as_slice(), &["stat"], &["get", "motto", "--bucket", "world"]] {
        let done = run_on(words[0], &file, &[&words[1..], &["--json"]].concat());
        assert_eq!(done.err, "");
        assert_eq!(json::parse(done.text())["warnings"], Value::List(vec![Value::Text(OLDER.to_string())]));
    }
}

#[test]
fn a_lost_older_meta_page_is_told_as_well() {
    let judge = run_on("judge", &flipped(0), &[]);
    let lost =
        "meta page 0, which names the older transaction 9, cannot be used: the hash of the meta page is wrong (13)";
    assert!(judge.text().contains(&format!("  warning   {lost}\n")), "{}", judge.text());
    assert!(judge.text().contains("  by        meta page 1, transaction 10,"));
    let mut bytes = example();
    bytes[1_024..2_048].fill(0);
    let zeros = run_on("judge", &Temporary::file("zero-meta", &bytes), &[]);
    assert!(zeros.text().contains("; transaction 9, read from meta page 0, may not be the last\n"));
    assert!(!run(&["judge", EXAMPLE]).text().contains("warning"));
}

#[test]
fn one_meta_page_may_be_asked_for() {
    let older = run(&["judge", EXAMPLE, "--meta", "0"]);
    assert_eq!(older.status, 0);
    assert!(older.text().contains("root page 144, freelist page 145\n"));
    assert!(older.text().contains("  warning   an older transaction is read, 9: meta page 1 has 10\n"));
    assert_eq!(
        run(&["judge", EXAMPLE, "--meta=1"]).text().lines().nth(1),
        run(&["judge", EXAMPLE]).text().lines().nth(1)
    );
    assert_eq!(run(&["get", EXAMPLE, "--meta=0", "motto", "--bucket=world"]).text(), "Hold the wall.");
    let file = flipped(1);
    let broken = run_on("judge", &file, &["--meta", "1"]);
    assert_eq!(broken.status, 2);
    assert!(broken.text().contains("  meta page 1 cannot be used: the hash of the meta page is wrong (13)\n"));
    assert!(broken.text().contains("  to go on  meta page 0 can be used: leave --meta out\n"));
    assert_eq!(run_on("judge", &file, &["--meta", "0"]).status, 0);
}

#[test]
fn a_meta_page_that_is_not_gone_by_is_no_warning() {
    let words = ["--page-size=1024", "--page-count=146", "--root=65", "--freelist=66"];
    let judge = run_on("judge", &flipped(1), &words);
    assert_eq!(judge.status, 0);
    assert!(judge.text().contains("  by        the command line\n"), "{}", judge.text());
    assert!(!judge.text().contains("warning"));
    let get = run_on("get", &flipped(1), &[words[0], words[1], words[2], "motto", "--bucket=world"]);
    assert_eq!((get.text(), get.err.as_str()), ("Hold the wall.", ""));
    assert!(run_on("judge", &flipped(1), &words[1..]).text().contains("  warning   an older transaction is read, 9,"));
}

#[test]
fn json_has_both_meta_pages() {
    let metas = |file: &Temporary| json::parse(run_on("judge", file, &["--json"]).text())["metas"].list().to_vec();
    let whole = metas(&Temporary::file("two-metas", &example()));
    let broken = metas(&flipped(1));
    for (page, tx_id) in [(0, 9), (1, 10)] {
        assert_eq!((whole[page]["tx_id"].number(), &whole[page]["usable"]), (Some(tx_id), &Value::Bool(true)));
        assert_eq!(whole[page]["hash_hex"], whole[page]["hash_of_fields_hex"]);
        assert_eq!(whole[page]["byte"].number(), Some(1_024 * page as u64));
    }
    assert_eq!((&broken[0]["usable"], &broken[1]["usable"]), (&Value::Bool(true), &Value::Bool(false)));
    assert_eq!(broken[1]["sentence"].text(), "the hash of the meta page is wrong (13)");
    assert_ne!(broken[1]["hash_hex"], broken[1]["hash_of_fields_hex"]);
}

#[test]
fn a_file_without_metas_shows_what_is_there() {
    let mut bytes = example();
    bytes[72] ^= 1;
    bytes[1_024 + 72] ^= 1;
    let none = run_on("judge", &Temporary::file("no-metas", &bytes), &[]);
    assert_eq!(none.status, 2);
    assert!(none.text().contains(": refused, nothing judged\n  no meta page can be used: the hash"));
    assert!(none.text().contains("  meta 0    cannot be used: the hash of the meta page is wrong (13)\n"));
    assert!(none.text().contains("it says: type 3, transaction 9, root page 144,"));
    assert!(none.text().contains("  meta 1    cannot be used: the hash of the meta page is wrong (13)\n"));
    let says = "meta page 1 says --page-size 1024 --page-count 147 --root 65 --freelist 66";
    let hint = format!("  to go on  give --page-size, --page-count, --root and --freelist; {says}\n");
    assert!(none.text().contains(&hint), "{}", none.text());
    assert!(none.text().contains("  the meta on page 0, at byte 0:\n    00000000  00 00"));
}
