//! What the command tells about a fault besides its number.

use reading::layout::put_u64;
use reading::pack::{pack, Node};

use crate::breaches::{self, Breach};
use crate::command::run_with;
use crate::example;
use crate::files::{run_on, Temporary};
use crate::json::{self, Value};
use crate::small::{self, FREELIST, P, ROOT};

/// What `judge` says about a breach, in words and as JSON.
fn told(breach: &Breach) -> (String, Value) {
    let file = Temporary::file("told", &breach.bytes);
    let words = run_with("judge", &file, &[], breach.sizes).text().to_string();
    (words, json::parse(run_with("judge", &file, &["--json"], breach.sizes).text()))
}

/// What it says about the breach with this sentence's beginning.
fn told_of(sentence: &str) -> (String, Value) {
    told(breaches::all().iter().find(|breach| breach.sentence.starts_with(sentence)).unwrap())
}

#[test]
fn a_fault_names_the_element_that_named_its_page() {
    let cases = [
        ("page 99: ", "root page 3, element 2 > page 7, element 0 > page 99", "element 0 of page 7, at byte 7200"),
        (
            "page 8: the header",
            "root page 3, element 2 > page 7, element 0 > page 8",
            "element 0 of page 7, at byte 7200",
        ),
        (
            "page 10: the count",
            "root page 3, element 2 > page 7, element 1 > page 10",
            "element 1 of page 7, at byte 7224",
        ),
        ("page 10, element 0: ", "root page 3, element 1 > page 10", "element 1 of page 3, at byte 3128"),
        ("page 0: ", "root page 0", "the command line"),
    ];
    for (sentence, path, named) in cases {
        let (words, _) = told_of(sentence);
        assert!(words.contains(&format!("  path      main tree: {path}\n")), "{words}");
        assert!(words.contains(&format!(" is named by {named}\n")), "{words}");
        assert!(words.contains("  help      the lines below are read anew and not proved\n"));
    }
    let (_, json) = told_of("page 99: ");
    let by = &json["context"]["named_by"];
    assert_eq!((by["by"].text(), by["as"].text()), ("element", "child"));
    assert_eq!([&by["page"], &by["element"], &by["byte"]].map(Value::number), [Some(7), Some(0), Some(7_200)]);
    let path: Vec<_> = by["path"].list().iter().map(|step| (step["page"].number(), step["element"].number())).collect();
    assert_eq!(path, [(Some(3), Some(2)), (Some(7), Some(0))]);
    assert_eq!(json["context"]["proved"], Value::Bool(false));
}

#[test]
fn a_root_and_a_freelist_page_are_named_by_the_meta_page() {
    let mut bytes = small::image();
    put_u64(&mut bytes, (ROOT * P) as usize, 77);
    let root = Temporary::file("root-named", &bytes);
    let words = run_on("judge", &root, &[]);
    assert!(words.text().contains("page 3 is named by meta page 1, as root page, at byte 1080\n"), "{}", words.text());
    let json = json::parse(run_on("judge", &root, &["--json"]).text());
    assert_eq!(json["context"]["named_by"]["by"].text(), "meta_page");
    let mut bytes = small::image();
    put_u64(&mut bytes, (FREELIST * P) as usize, 77);
    let freelist = run_on("judge", &Temporary::file("freelist-named", &bytes), &[]);
    assert!(freelist.text().contains("  path      freelist page 2\n"));
    assert!(freelist.text().contains("page 2 is named by meta page 1, as freelist page, at byte 1104\n"));
}

#[test]
fn headers_and_elements_are_decoded() {
    let (words, json) = told_of("page 8: the header");
    assert!(words.contains("  header    page 8 at byte 8192: id 4, type 2 (leaf), count 2, overflow 0\n"), "{words}");
    let header = &json["context"]["header"];
    assert_eq!((header["id"].number(), header["type_name"].text()), (Some(4), "leaf"));
    assert_eq!(json["context"]["page_byte"].number(), Some(8_192));
    let (words, json) = told_of("page 4, element 1: this element");
    let numbers = "kind 0, pos 18446744073709551615, key size 3, value size 15";
    assert!(words.contains(&format!("  element   at byte 4160: {numbers}\n")), "{words}");
    assert_eq!(json["context"]["element"]["pos"].number(), Some(u64::MAX));
    assert_eq!(json["context"]["element_byte"].number(), Some(4_160));
}

#[test]
fn a_number_with_several_causes_says_which() {
    let cases = [
        (8, 0, 4, "its id is 4"),
        (8, 8, 4, "its type is 4 (freelist), not branch (1) or leaf (2)"),
        (10, 24, 5, "with 5 overflow pages it ends on page 15, and 11 is the last"),
        (10, 16, 0, "its count is 0, as only that of a root leaf may be"),
        (10, 16, 32, "a table of 32 elements ends 1056 bytes after its start, and the block has 1024"),
        (4, 32, 2, "its kind is 2, neither data (0) nor bucket (1)"),
        (4, 32, 1, "its kind is bucket, and its value has 10 bytes, not 16"),
        (4, 40, 8, "its key starts 40 bytes after the block's start, and the elements end at 128"),
        (4, 56, 2_000, "its key and value end 2130 bytes after the block's start, and the block has 1024"),
        (4, 80, 1, "\"a\" is not above \"ab\""),
        (7, 32, 99, "the pages of a tree are 2 to 11"),
        (FREELIST, 32, 12, "the id is 12, and pages that can be free are 2 to 11"),
        (FREELIST, 32, 11, "11 is not above 11"),
        (FREELIST, 8, 2, "its type is 2 (leaf), not freelist (4)"),
    ];
    for (page, at, number, cause) in cases {
        let mut bytes = small::image();
        put_u64(&mut bytes, (page * P) as usize + at, number);
        let file = Temporary::file("cause", &bytes);
        let words = run_on("judge", &file, &[]);
        assert!(words.text().contains(&format!("  cause     {cause}\n")), "{cause}: {}", words.text());
        let json = json::parse(run_on("judge", &file, &["--json"]).text());
        assert_eq!(json["context"]["cause"].text(), cause);
    }
}

#[test]
fn a_key_outside_its_range_has_the_ends_of_it() {
    let (words, json) = told_of("page 10, element 0: ");
    let range = "from \"c\" (element 1 of page 3) up to, not including, \"p\" (element 2 of page 3)";
    assert!(words.contains(&format!("  range     {range}: the key is not below its upper end\n")), "{words}");
    let range = &json["context"]["range"];
    assert_eq!((range["low"]["key"].text(), range["high"]["key_hex"].text()), ("c", "70"));
    assert_eq!((range["high"]["page"].number(), range["high"]["element"].number()), (Some(3), Some(2)));
    assert_eq!(range["crossed"].text(), "high");
    assert_eq!(json["context"]["keys"].list()[0].text(), "s");
    let (_, order) = told_of("page 4, element 1: this key");
    let keys: Vec<&str> = order["context"]["keys"].list().iter().map(Value::text).collect();
    assert_eq!(keys, ["ab", "a"]);
    let mut bytes = small::image();
    bytes[10_400] = b'a';
    let file = Temporary::file("range-low", &bytes);
    let json = json::parse(run_on("judge", &file, &["--json"]).text());
    let range = &json["context"]["range"];
    assert_eq!((range["crossed"].text(), range["low"]["key"].text(), &range["high"]), ("low", "r", &Value::Null));
}

/// Checks that each of these lines is told.
fn check_lines(words: &str, lines: &[&str]) {
    for line in lines {
        assert!(words.contains(&format!("  {line}\n")), "{line}\n{words}");
    }
}

#[test]
fn a_block_reached_twice_has_both_places() {
    let (words, json) = told_of("page 4: a page is used twice");
    let lines = [
        "cause     the leaf on page 4 is reached twice",
        "path      main tree: root page 3, element 1 > page 4",
        "named     page 4 is named by element 1 of page 3, at byte 3128",
        "in use    the leaf on page 4 is named by element 0 of page 3, at byte 3104",
    ];
    check_lines(&words, &lines);
    assert_eq!(json["context"]["first_named_by"]["element"].number(), Some(0));
    assert_eq!((json["page"].number(), &json["element"]), (Some(4), &Value::Null));
    let mut bytes = small::image();
    put_u64(&mut bytes, (7 * P) as usize + 32 + 24, 3);
    let cycle = run_on("judge", &Temporary::file("cycle", &bytes), &[]);
    let lines = [
        "cause     the branch on page 3 is reached twice",
        "named     page 3 is named by element 1 of page 7, at byte 7224",
        "in use    the branch on page 3 is named by meta page 1, as root page, at byte 1080",
    ];
    check_lines(cycle.text(), &lines);
}

#[test]
fn a_page_of_two_blocks_has_both() {
    let (words, json) = told_of("page 7: a page is used twice");
    let lines = [
        "cause     page 7 is part of the leaf on pages 5 to 7, and of the branch on page 7",
        "path      main tree: root page 3, element 2 > page 7",
        "named     page 7 is named by element 2 of page 3, at byte 3152",
        "in use    the leaf on pages 5 to 7 is named by element 1 of page 3, at byte 3128",
        "header    page 7 at byte 7168: id 7, type 1 (branch), count 2, overflow 0",
    ];
    check_lines(&words, &lines);
    let context = &json["context"];
    assert_eq!(context["page_in_use"].number(), Some(7));
    let used_by: Vec<_> = context["used_by"].list().iter().map(|block| block["first_page"].number()).collect();
    assert_eq!(used_by, [Some(5), Some(7)]);
    assert_eq!(context["used_by"].list()[0]["last_page"].number(), Some(7));
    assert_eq!(context["used_by"].list()[1]["type_name"].text(), "branch");
    let (words, _) = told_of("page 3: a page is used twice");
    let lines = [
        "cause     page 3 is part of the branch on page 3, and of the freelist on pages 2 to 3",
        "path      freelist page 2",
        "named     page 2 is named by the command line",
        "in use    the branch on page 3 is named by the command line",
        "header    page 2 at byte 2048: id 2, type 4 (freelist), count 2, overflow 1",
    ];
    check_lines(&words, &lines);
    let (words, _) = told_of("page 6: a page is used twice");
    check_lines(&words, &["cause     page 6 is part of the leaf on pages 5 to 6, and of the freelist on page 6"]);
}

#[test]
fn a_free_id_in_use_names_its_element_and_its_place() {
    let cases = [
        (0, 5, "the leaf on pages 5 to 6", "element 1 of page 3, at byte 3128"),
        (0, 6, "the leaf on pages 5 to 6", "element 1 of page 3, at byte 3128"),
        (1, 10, "the leaf on page 10", "element 1 of page 7, at byte 7224"),
        (0, FREELIST, "the freelist on page 2", "meta page 1, as freelist page, at byte 1104"),
    ];
    for (i, id, block, place) in cases {
        let mut bytes = small::image();
        put_u64(&mut bytes, (FREELIST * P) as usize + 32 + 8 * i, id);
        let file = Temporary::file("free-id", &bytes);
        let words = run_on("judge", &file, &[]);
        assert!(words.text().contains(&format!("  page 2, element {i}: a page is used twice")), "{}", words.text());
        let lines = [
            format!("cause     free id {i} is page {id}, part of {block}"),
            format!("in use    {block} is named by {place}"),
            format!("element   at byte {}: free id {id}", 2_080 + 8 * i),
        ];
        check_lines(words.text(), &lines.each_ref().map(String::as_str));
        let json = json::parse(run_on("judge", &file, &["--json"]).text());
        assert_eq!(json["element"].number(), Some(i as u64));
        assert_eq!(json["context"]["page_in_use"].number(), Some(id));
        assert_eq!(json["context"]["used_by"].list().len(), 1);
    }
}

#[test]
fn a_tree_too_deep_has_its_whole_path() {
    let (words, json) = told_of("page 18: ");
    let path = json["context"]["named_by"]["path"].list();
    let pages: Vec<_> = path.iter().map(|step| step["page"].number().unwrap()).collect();
    assert_eq!(pages, (2..18).collect::<Vec<u64>>());
    assert!(words.contains("page 17, element 0 > page 18\n"));
}

#[test]
fn a_fault_names_the_tree_that_broke() {
    let mut bytes = example();
    put_u64(&mut bytes, 63 * 1_024, 7);
    let file = Temporary::file("characters-broken", &bytes);
    assert_eq!(run_on("judge", &file, &[]).status, 0);
    let within = run_on("judge", &file, &["--bucket", "characters"]);
    let begin = format!("{}: bucket \"characters\" refused\n  page 63: the header", file.path.display());
    assert!(within.text().starts_with(&begin), "{}", within.text());
    assert!(within.text().contains("  tree      bucket \"characters\", root page 63,"));
    assert!(within
        .text()
        .contains("page 63 is named by the entry of the bucket \"characters\", as root page, at byte "));
    let below = run_on("judge", &file, &["--bucket", "characters", "--bucket", "bags"]);
    assert!(below.text().contains(": bucket \"characters\" refused on the way to bucket \"bags\"\n"));
    assert!(below.text().contains("  tree      bucket \"characters\", root page 63,"));
    let get = run_on("get", &file, &["anyone", "--bucket", "characters"]);
    assert!(get.err.contains(": bucket \"characters\" refused: page 63: the header"), "{}", get.err);
    let json = json::parse(run_on("judge", &file, &["--json", "--bucket=characters", "--bucket=bags"]).text());
    assert_eq!(json["scope"]["path"].list()[0].text(), "characters");
    assert_eq!(json["on_the_way_to_bucket"].text(), "bags");
    assert_eq!(json["context"]["named_by"]["by"].text(), "bucket_entry");
    put_u64(&mut bytes, 65 * 1_024, 7);
    let main = run_on("judge", &Temporary::file("main-broken", &bytes), &["--bucket", "characters"]);
    assert!(main.text().contains(": main tree refused on the way to bucket \"characters\"\n  page 65: "));
    assert!(main.text().contains("  tree      the main tree, root page 65,"));
}

#[test]
fn a_lookup_has_the_way_to_its_fault() {
    let mut bytes = small::image();
    put_u64(&mut bytes, (10 * P) as usize, 77);
    let get = run_on("get", &Temporary::file("way-of-get", &bytes), &["t"]);
    assert_eq!(get.status, 2);
    assert!(
        get.err.contains("  path      main tree: root page 3, element 2 > page 7, element 1 > page 10\n"),
        "{}",
        get.err
    );
    assert!(get.err.contains("  header    page 10 at byte 10240: id 77, type 2 (leaf), count 4, overflow 0\n"));
    let mut bytes = vec![0; 4 * P as usize];
    let entry = reading::block::Entry { tag: 3, key: b"", value: b"" };
    bytes[3 * P as usize..].copy_from_slice(&pack(&Node { id: 3, leaf: false, entries: vec![entry] }, P));
    let itself = Temporary::file("itself", &bytes);
    let words = ["x", "--json", "--page-size", "1024", "--page-count", "4", "--root", "3"];
    let json = json::parse(run_on("get", &itself, &words).text());
    assert_eq!((json["number"].number(), json["page"].number()), (Some(9), Some(3)));
    assert_eq!(json["context"]["named_by"]["path"].list().len(), 16);
    let judged = json::parse(run_with("judge", &itself, &["--json"], [P, 4, 3, 2]).text());
    assert_eq!((judged["number"].number(), judged["context"]["named_by"]["page"].number()), (Some(8), Some(3)));
}

#[test]
fn stat_tells_a_buckets_own_next_number() {
    let file = Temporary::file("next", &small::image());
    let stat = run_on("stat", &file, &["--bucket", "quay"]);
    assert!(stat.text().contains("  by        meta page 1, transaction 6, next number 7\n"));
    assert!(stat.text().contains("  bucket    next number 1\n"), "{}", stat.text());
    let json = json::parse(run_on("stat", &file, &["--bucket", "quay", "--json"]).text());
    assert_eq!((json["bucket_next_int"].number(), json["next_int"].number()), (Some(1), Some(7)));
    assert!(!json::parse(run_on("stat", &file, &["--json"]).text()).has("bucket_next_int"));
}
