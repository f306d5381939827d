//! What a verdict covers: one tree of a file, and the limits of this version.

use std::fs::File;

use crate::files::{run, run_on, Temporary};
use crate::json::{self, Value};
use crate::small::{self, put_meta};
use crate::EXAMPLE;

#[test]
fn a_verdict_says_which_tree_it_is_about() {
    let cases: [(&[&str], &str); 4] = [
        (&[], "main tree sound, 4 buckets not judged"),
        (&["--bucket", "characters"], "bucket \"characters\" sound, 1 bucket in it not judged"),
        (&["--bucket", "characters", "--bucket", "bags"], "bucket \"characters\", \"bags\" sound, it has no buckets"),
        (&["--bucket", "auctions"], "bucket \"auctions\" sound, it has no buckets"),
    ];
    for (words, headline) in cases {
        let judge = run(&[&["judge", EXAMPLE], words].concat());
        assert_eq!(judge.text().lines().next().unwrap(), format!("{EXAMPLE}: {headline}"));
        let stat = run(&[&["stat", EXAMPLE], words].concat());
        assert!(stat.text().lines().last().unwrap().starts_with(&format!("  verdict   {headline}: ")));
    }
    let main = run(&["judge", EXAMPLE]);
    let names = "\"accounts\", \"auctions\", \"characters\", \"world\": not judged here, name one with --bucket";
    assert!(main.text().contains(&format!("  buckets   {names}\n")));
}

#[test]
fn json_has_a_scope() {
    for action in ["judge", "stat"] {
        let main = json::parse(run(&[action, EXAMPLE, "--json"]).text());
        assert_eq!((main["verdict"].text(), main["scope"]["tree"].text()), ("sound", "main"));
        assert_eq!(main["scope"]["buckets_not_judged"].number(), Some(4));
        assert_eq!(main["scope"]["whole_file"], Value::Bool(false));
        let bucket = json::parse(run(&[action, EXAMPLE, "--json", "--bucket", "characters"]).text());
        assert_eq!(bucket["scope"]["tree"].text(), "bucket");
        assert_eq!(bucket["scope"]["path"].list()[0].text(), "characters");
        assert_eq!(bucket["scope"]["path_hex"].list()[0].text(), "63686172616374657273");
        assert_eq!(bucket["scope"]["root"].number(), Some(63));
        assert_eq!(bucket["scope"]["buckets_not_judged"].number(), Some(1));
    }
}

#[test]
fn without_a_tree_there_is_no_scope() {
    let file = Temporary::file("no-tree", &[0; 5_000]);
    assert_eq!(json::parse(run_on("judge", &file, &["--json"]).text())["scope"], Value::Null);
}

#[test]
fn buckets_are_counted_over_all_leaves() {
    let file = Temporary::file("one-bucket", &small::image());
    assert!(run_on("judge", &file, &[]).text().contains("main tree sound, 1 bucket not judged\n"));
}

/// Every action on this file ends with 3, a sentence that has these words, and a verdict of its own.
fn check_beyond(file: &Temporary, words: &[&str], sentence: &str) {
    for action in [["judge"].as_slice(), &["stat"], &["get", "ab"]] {
        let words = [&action[1..], words].concat();
        let done = run_on(action[0], file, &words);
        assert_eq!(done.status, 3, "{action:?}: {}{}", done.text(), done.err);
        let said = format!("{}{}", done.text(), done.err);
        assert!(said.contains("beyond the limits of this version") && said.contains(sentence), "{said}");
        assert!(!said.contains("refused") && !said.contains("to go on"), "{said}");
        let json = json::parse(run_on(action[0], file, &[words.as_slice(), &["--json"]].concat()).text());
        assert_eq!(json["verdict"].text(), "beyond_limits");
        assert_eq!(json["sizes"]["limit"], Value::Bool(true));
        assert!(json["sentence"].text().contains(sentence));
    }
}

#[test]
fn a_file_beyond_the_limits_is_not_called_damaged() {
    let mut bytes = small::image();
    put_meta(&mut bytes, 1, 1_024, 32_769, 9);
    let many = Temporary::file("many-pages", &bytes);
    File::options().write(true).open(&many.path).unwrap().set_len(32_769 * 1_024).unwrap();
    check_beyond(&many, &[], "the page count is 32,769; this version takes 2 to 32,768");
    let mut bytes = vec![0; 3 * 131_072];
    put_meta(&mut bytes, 0, 131_072, 3, 9);
    let large = Temporary::file("large-pages", &bytes);
    check_beyond(&large, &[], "the page size is 131,072; this version takes multiples of 8 from 1,024 to 65,536");
    let odd = Temporary::file("odd-size", &small::image());
    check_beyond(&odd, &["--page-size", "1001"], "the page size is 1,001;");
}

#[test]
fn each_cause_of_1_has_its_own_sentence() {
    let file = Temporary::file("causes", &small::image()[..6_000]);
    let short = run_on("judge", &file, &[]);
    assert_eq!(short.status, 2);
    assert!(short.text().contains("  the bytes hold 6,000 of the 12,288 that 12 pages of 1,024 take (1)\n"));
    let few = run_on("judge", &file, &["--page-count", "1"]);
    assert_eq!(few.status, 2);
    assert!(few.text().contains("  the page count is 1; this version takes 2 to 32,768 (1)\n"));
}

#[test]
fn a_short_file_says_how_many_pages_it_has() {
    let file = Temporary::file("short", &small::image()[..6_000]);
    let hint = "the file has 5 whole pages of 1024 bytes: --page-count 5 asks about these";
    assert!(run_on("judge", &file, &[]).text().contains(&format!("  to go on  {hint}\n")));
    assert!(run_on("stat", &file, &[]).text().contains(&format!("  to go on  {hint}\n")));
    assert!(run_on("get", &file, &["ab"]).err.contains(&format!("  to go on  {hint}\n")));
    let json = json::parse(run_on("judge", &file, &["--json"]).text());
    assert_eq!((json["to_go_on"].text(), json["sizes"]["whole_pages"].number()), (hint, Some(5)));
    assert_eq!(run_on("get", &file, &["ab", "--page-count", "5"]).text(), "ab".repeat(5));
    let mut bytes = small::image();
    put_meta(&mut bytes, 1, 1_024, 50_000, 9);
    let long = Temporary::file("long", &bytes);
    File::options().write(true).open(&long.path).unwrap().set_len(40_000 * 1_024).unwrap();
    let done = run_on("judge", &long, &[]);
    assert_eq!(done.status, 2);
    let hint = "the file has 40000 whole pages of 1024 bytes, and this version takes 32768";
    assert!(done.text().contains(&format!("  to go on  {hint}\n")), "{}", done.text());
}
