//! Names that hold anything: options in both forms, nothing that a terminal obeys, nothing lost in JSON.

use std::ffi::{OsStr, OsString};
use std::fs;
use std::os::unix::ffi::{OsStrExt, OsStringExt};
use std::path::PathBuf;

use crate::command::{leaf_of, options};
use crate::files::{run, run_on, Temporary};
use crate::json;
use crate::{small, EXAMPLE};

#[test]
fn every_option_with_a_word_has_both_forms() {
    let pairs = [
        ("--bucket", "world"),
        ("--bucket-hex", "776f726c64"),
        ("--page-size", "1024"),
        ("--page-count", "146"),
        ("--root", "51"),
        ("--freelist", "66"),
        ("--meta", "0"),
        ("--jobs", "2"),
    ];
    for (name, word) in pairs {
        let two = run(&["judge", "--json", EXAMPLE, name, word]);
        let one = run(&["judge", "--json", EXAMPLE, &format!("{name}={word}")]);
        let untimed = |text: &str| text.split("\"seconds\"").next().unwrap().to_string();
        assert_eq!((two.status, untimed(two.text())), (one.status, untimed(one.text())), "{name}");
        assert_eq!(two.status == 0, one.err.is_empty());
    }
    let odd = run(&["get", EXAMPLE, "--bucket=a=b", "key"]);
    assert!(odd.err.contains("there is no bucket \"a=b\" in the main tree"));
    assert!(run(&["get", EXAMPLE, "--bucket=", "key"]).err.contains("there is no bucket \"\" in the main tree"));
    let lines = [
        (["judge", EXAMPLE, "--json=yes"], "--json takes no word"),
        (["judge", EXAMPLE, "--rot=3"], "there is no option \"--rot\""),
        (["judge", EXAMPLE, "--root="], "--root wants a number, not \"\""),
        (["judge", EXAMPLE, "--meta=2"], "--meta wants 0 or 1, not 2"),
        (["judge", EXAMPLE, "--jobs=0"], "--jobs wants 1 or more, not 0"),
        (["stat", EXAMPLE, "--quiet"], "--quiet is about judge"),
        (["stat", EXAMPLE, "--jobs=2"], "--jobs is about judge"),
    ];
    for (words, why) in lines {
        let done = run(&words);
        assert_eq!(done.status, 64, "{words:?}");
        assert!(done.err.starts_with(&format!("tyvarmos: {why}\n")), "{}", done.err);
    }
}

/// Checks that a text steers no terminal.
fn check_plain(text: &str) {
    let odd = text.chars().find(|character| character.is_control() && *character != '\n');
    assert_eq!(odd, None, "{text:?}");
}

#[test]
fn no_name_reaches_a_terminal_raw() {
    let name = "clear\x1b[2J\u{9B}0m\r\x07";
    let file = Temporary::file(name, &small::image());
    let nothing = Temporary::nothing(&format!("{name}-nothing"));
    for action in [
        ["judge"].as_slice(),
        &["judge", "--bucket", name],
        &["stat"],
        &["get", name],
        &["get", "ab", "--bucket", name],
    ] {
        for file in [&file, &nothing] {
            for json in [&[][..], &["--json"]] {
                let done = run_on(action[0], file, &[&action[1..], json].concat());
                check_plain(done.text());
                check_plain(&done.err);
            }
        }
    }
    assert!(run_on("judge", &file, &[]).text().contains("clear\\x1b[2J\\xc2\\x9b0m\\x0d\\x07: main tree sound"));
    for words in [
        [name].as_slice(),
        &["judge", EXAMPLE, "--x\x1b[2J"],
        &["get", EXAMPLE, "--hex", name],
        &["stat", EXAMPLE, name],
    ] {
        let done = run(words);
        assert_eq!(done.status, 64);
        check_plain(&done.err);
    }
}

#[test]
fn a_name_with_a_line_end_takes_one_line() {
    let file = Temporary::file("two\nlines", &small::image());
    let both = run(&[OsStr::new("judge"), file.word(), OsStr::new(EXAMPLE)]);
    assert_eq!(both.text().lines().count(), 2);
    assert!(both.text().contains("two\\x0alines: main tree sound"));
}

#[test]
fn json_loses_nothing_of_a_name() {
    let raw = OsString::from_vec(b"shard-\xFF\xFE.db".to_vec());
    let folder = Temporary::nothing("raw");
    fs::create_dir(&folder.path).unwrap();
    let path: PathBuf = folder.path.join(&raw);
    fs::write(&path, small::image()).unwrap();
    let digits = |bytes: &[u8]| bytes.iter().map(|byte| format!("{byte:02x}")).collect::<String>();
    for path in [path.clone(), folder.path.join(OsString::from_vec(b"no\xFF".to_vec()))] {
        let done = run(&[OsStr::new("judge"), path.as_os_str(), OsStr::new("--json")]);
        let told = json::parse(done.text());
        assert_eq!(told["file_hex"].text(), digits(path.as_os_str().as_bytes()));
        assert!(told["file"].text().ends_with('\u{FFFD}') || told["file"].text().ends_with("\u{FFFD}\u{FFFD}.db"));
    }
    let words = run(&[OsStr::new("judge"), path.as_os_str()]);
    assert!(words.text().contains("shard-\\xff\\xfe.db: main tree sound"));
}

#[test]
fn json_loses_nothing_of_a_key_or_bucket() {
    let file = Temporary::file("raw-keys", &leaf_of(&[b"a\xFF\x1b", b"b"]));
    let sizes = options([1_024, 4, 3, 2]);
    let mut words: Vec<&str> = sizes.iter().map(String::as_str).collect();
    words.extend(["--json", "--hex", "61ff1b"]);
    let told = json::parse(run_on("get", &file, &words).text());
    assert_eq!((told["key"].text(), told["key_hex"].text()), ("a\u{FFFD}\u{1b}", "61ff1b"));
    assert_eq!(told["verdict"].text(), "found");
    let told = json::parse(run(&["judge", EXAMPLE, "--json", "--bucket-hex=ff00"]).text());
    assert_eq!((told["buckets"].list()[0].text(), told["buckets_hex"].list()[0].text()), ("\u{FFFD}\0", "ff00"));
    assert_eq!(told["sentence"].text(), "there is no bucket 0xff00 in the main tree");
}
