//! The papers' examples of the command show what it prints.

use std::collections::BTreeSet;
use std::fs;
use std::process::Command;

use reading::layout::{header, put_u64};
use tyvarmos::Image;

use crate::breaches;
use crate::command::run_with;
use crate::files::{run_on, Done, Temporary};
use crate::json::{self, Value};
use crate::{example, small};

const TOP: &str = concat!(env!("CARGO_MANIFEST_DIR"), "/../..");

fn paper(name: &str) -> String {
    fs::read_to_string(format!("{TOP}/{name}")).unwrap()
}

/// The lines that a paper shows after the one that begins so, up to an empty line; `..` stands for what it leaves out.
fn shown<'a>(paper: &'a str, first: &str) -> Vec<&'a str> {
    let lines = paper.lines().map(|line| line.strip_prefix("    ").unwrap_or(""));
    let lines = lines.skip_while(|line| !line.starts_with(first)).take_while(|line| !line.is_empty());
    lines.filter(|line| line.trim() != "..").collect()
}

/// Checks that the command prints each line shown.
fn check_shown(shown: &[&str], done: &Done) {
    assert!(shown.len() >= 4, "{shown:?}");
    for line in shown {
        let (start, end) = line.split_once(" .. ").unwrap_or((line, ""));
        let found = done.text().lines().any(|told| told.starts_with(start) && told.ends_with(end));
        assert!(found, "{line}\n{}", done.text());
    }
}

/// Runs the command in a folder.
fn run_in(folder: &str, words: &[&str]) -> Done {
    Command::new(env!("CARGO_BIN_EXE_tyvarmos")).args(words).current_dir(folder).output().unwrap().into()
}

#[test]
fn the_readme_shows_the_verdict_on_the_example() {
    let done = run_in(TOP, &["judge", "examples/shard.db"]);
    check_shown(&shown(&paper("README.md"), "examples/shard.db: "), &done);
}

/// The byte that a paper puts into a copy of the example, by `printf` and `dd`, and where; the copy is not to be kept.
fn byte_put(paper_text: &str, copy: &str) -> (usize, u8) {
    let (before, after) = paper_text.split_once(&format!("' | dd of={copy} bs=1 seek=")).unwrap();
    let at = after.split(' ').next().unwrap().parse().unwrap();
    let (_, digits) = before.rsplit_once("printf '\\").unwrap();
    assert!(paper_text.contains(&format!("    cp examples/shard.db {copy}\n")));
    assert!(paper(".gitignore").lines().any(|line| line == copy));
    (at, u8::from_str_radix(digits, 8).unwrap())
}

/// Judges the example with a byte put there, as a file of this name, by the words that a paper has for it.
fn judged_with(put: (usize, u8), paper_text: &str, copy: &str) -> Done {
    let (_, words) = paper_text.split_once(&format!("    ./tyvarmos judge {copy}")).unwrap();
    let words = ["judge", copy].into_iter().chain(words.lines().next().unwrap().split_whitespace());
    judged_by(&words.collect::<Vec<_>>(), put, copy)
}

/// Judges the example with a byte put there, as a file of this name, by these words.
fn judged_by(words: &[&str], (at, byte): (usize, u8), copy: &str) -> Done {
    let folder = Temporary::nothing("judged-with");
    fs::create_dir(&folder.path).unwrap();
    let mut bytes = example();
    bytes[at] = byte;
    fs::write(folder.path.join(copy), bytes).unwrap();
    run_in(folder.path.to_str().unwrap(), words)
}

#[test]
fn the_readme_damages_an_element_and_shows_it_named() {
    let readme = paper("README.md");
    let (at, byte) = byte_put(&readme, "damaged.db");
    let done = judged_with((at, byte), &readme, "damaged.db");
    assert_eq!((done.status, byte), (2, 255));
    check_shown(&shown(&readme, "damaged.db: "), &done);
    let element = (at - 65 * 1_024 - 32) / 32;
    assert!(done.text().contains(&format!("  page 65, element {element}: ")));
    assert!(readme.contains(&format!("Element {element} of page 65")));
}

#[test]
fn the_examples_lose_a_shard_and_show_it_named() {
    let examples = paper("examples/README.md");
    let (at, byte) = byte_put(&examples, "lost.db");
    let done = judged_with((at, byte), &examples, "lost.db");
    assert_eq!(done.status, 2);
    check_shown(&shown(&examples, "lost.db: "), &done);
    let id = (at - 66 * 1_024 - 32) / 8;
    assert!(examples.contains(&format!("Free id {id}, on page 66, was {} and is {byte} now", example()[at])));
    assert!(done.text().contains(&format!("  page 66, element {id}: ")));
    let main = judged_by(&["judge", "lost.db"], (at, byte), "lost.db");
    assert_eq!(main.status, 0, "{}", main.text());
}

#[test]
fn the_examples_share_a_page_and_show_it_named() {
    let examples = paper("examples/README.md");
    let (at, byte) = byte_put(&examples, "shared.db");
    let done = judged_with((at, byte), &examples, "shared.db");
    assert_eq!((done.status, at, byte), (2, 8 * 1_024 + 24, 1));
    check_shown(&shown(&examples, "shared.db: "), &done);
}

#[test]
fn the_examples_change_a_separator_and_show_where_it_parts_from_a_key() {
    let examples = paper("examples/README.md");
    let (at, byte) = byte_put(&examples, "parted.db");
    let done = judged_with((at, byte), &examples, "parted.db");
    assert_eq!((done.status, example()[at], byte), (2, b'6', b'7'));
    let shown = shown(&examples, "parted.db: ");
    check_shown(&shown, &done);
    assert!(done.text().ends_with(&format!("{}\n", shown[shown.len() - 4..].join("\n"))), "{}", done.text());
    let found = judged_by(&["get", "parted.db", "--bucket", "accounts", "account-0136"], (at, byte), "parted.db");
    assert_eq!(found.status, 1, "{}", found.err);
}

#[test]
fn the_examples_say_how_many_pages_the_map_takes() {
    let bytes = example();
    let world = Image::of_file(&bytes).unwrap().bucket(b"world").unwrap().unwrap().tree();
    assert_eq!(header(&bytes[(world.root_page * world.page_size) as usize..]).overflow + 1, 5);
    assert!(paper("examples/README.md").contains("the map has 4,860 bytes: a block of five pages"));
}

/// Adds the name of each field of a value, and of what it holds.
fn add_names(value: &Value, names: &mut BTreeSet<String>) {
    match value {
        Value::Object(fields) => {
            for (name, value) in fields {
                names.insert(name.clone());
                add_names(value, names);
            }
        }
        Value::List(values) => values.iter().for_each(|value| add_names(value, names)),
        _ => {}
    }
}

/// The names of all fields that the command prints about files of many kinds.
fn printed() -> BTreeSet<String> {
    let mut names = BTreeSet::new();
    let mut add = |done: Done| add_names(&json::parse(done.text()), &mut names);
    for breach in breaches::all() {
        add(run_with("judge", &Temporary::file("printed", &breach.bytes), &["--json"], breach.sizes));
    }
    let mut branch = small::image();
    put_u64(&mut branch, 7 * 1_024 + 32 + 24 + 16, u64::MAX);
    add(run_on("judge", &Temporary::file("branch", &branch), &["--json"]));
    let mut bytes = example();
    bytes[65 * 1_024] ^= 1;
    add(run_on("stat", &Temporary::file("printed-way", &bytes), &["--json", "--bucket", "world"]));
    add(run_on("judge", &Temporary::file("printed-empty", &[]), &["--json"]));
    let words: [&[&str]; 4] =
        [&["stat", "--bucket=world"], &["get", "motto", "--bucket=world"], &["get", "no"], &["judge"]];
    for words in words {
        add(run_in(TOP, &[&words[..1], &["examples/shard.db", "--json"], &words[1..]].concat()));
    }
    names
}

#[test]
fn every_json_field_is_told_of() {
    let paper = paper("docs/JSON.md");
    let told: BTreeSet<&str> = paper.split('`').skip(1).step_by(2).collect();
    let mut printed = printed();
    printed.insert("pages_needed".to_string());
    let untold: Vec<&String> = printed.iter().filter(|name| !told.contains(name.as_str())).collect();
    assert!(untold.is_empty(), "{untold:?}");
    let values = "--json x x_hex sound found absent refused beyond_limits unreadable data bucket main meta_page \
                  bucket_entry command_line child root freelist element";
    let unknown: Vec<&&str> = told
        .iter()
        .filter(|name| !printed.contains(**name) && !values.split_whitespace().any(|v| v == **name))
        .collect();
    assert!(unknown.is_empty(), "{unknown:?}");
}
