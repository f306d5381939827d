//! What the command says about sound and damaged files.

use reading::block::Entry;
use reading::pack::{pack, Node};
use tyvarmos::{Image, Kind, Meta};

use crate::breaches::{self, Breach};
use crate::damage::damage;
use crate::files::{run, run_on, Done, Temporary};
use crate::json;
use crate::listing::entries;
use crate::rng::Rng;
use crate::small::{self, put_meta};
use crate::{example, EXAMPLE};

/// The options that stand in for a meta page.
pub fn options(sizes: [u64; 4]) -> Vec<String> {
    let names = ["--page-size", "--page-count", "--root", "--freelist"];
    names.iter().zip(sizes).flat_map(|(name, number)| [name.to_string(), number.to_string()]).collect()
}

/// Runs the command on a file with words and these options.
pub fn run_with(action: &str, file: &Temporary, words: &[&str], sizes: [u64; 4]) -> Done {
    let options = options(sizes);
    let words: Vec<&str> = words.iter().copied().chain(options.iter().map(String::as_str)).collect();
    run_on(action, file, &words)
}

#[test]
fn judge_tells_what_is_sound() {
    let done = run(&["judge", EXAMPLE]);
    assert_eq!((done.status, done.err.as_str()), (0, ""));
    assert!(done.text().starts_with(&format!("{EXAMPLE}: main tree sound, 4 buckets not judged\n")));
    assert!(done.text().contains("the main tree, root page 65, freelist page 66\n"));
    assert!(done.text().contains("146 pages of 1024 bytes\n"));
    assert!(done.text().contains("meta page 1, transaction 10, next number 4\n"));
    assert!(done.text().contains("4 entries in 2 pages, the freelist's included\n"));
    assert!(done.text().contains(" ms\n"));
    let bags = run(&["judge", EXAMPLE, "--bucket", "characters", "--bucket-hex", "62616773"]);
    assert_eq!(bags.status, 0);
    assert!(bags.text().contains("bucket \"characters\", \"bags\", root page 51"));
    assert!(bags.text().contains("107 entries in 22 pages"));
}

#[test]
fn judge_names_each_breach() {
    for breach in breaches::all() {
        let file = Temporary::file("breach", &breach.bytes);
        let done = run_with("judge", &file, &[], breach.sizes);
        let (status, headline) = match breach.fault.is_limit() {
            true => (3, "beyond the limits of this version"),
            false => (2, "main tree refused"),
        };
        assert_eq!((done.status, done.err.as_str()), (status, ""));
        let begin = format!("{}: {headline}\n  {}\n", file.path.display(), breach.sentence);
        assert!(done.text().starts_with(&begin), "{}", done.text());
        let json = run_with("judge", &file, &["--json"], breach.sizes);
        assert_eq!(json.status, status);
        let told = json::parse(json.text());
        assert_eq!(told["verdict"].text(), if status == 3 { "beyond_limits" } else { "refused" });
        assert_eq!(told["number"].number(), Some(breach.fault.number.code()));
        assert_eq!((told["page"].number(), told["element"].number()), (breach.fault.page, breach.fault.element));
        assert_eq!(told["sentence"].text(), breach.sentence);
    }
}

#[test]
fn judge_shows_the_bytes_of_a_breach() {
    let shown = |number: u64, element: Option<u64>| {
        let asked = |b: &Breach| (b.fault.number.code(), b.fault.element) == (number, element);
        let breach = breaches::all().into_iter().find(asked).unwrap();
        let file = Temporary::file("shown", &breach.bytes);
        run_with("judge", &file, &[], breach.sizes).text().to_string()
    };
    let header = "  its header, at byte 8192:\n    00002000  04 00 00 00 00 00 00 00 02 00 00 00 00 00 00 00  .";
    assert!(shown(3, None).contains(header));
    assert!(shown(5, Some(1))
        .contains("  element 1, at byte 4160:\n    00001040  00 00 00 00 00 00 00 00 ff ff ff ff ff ff ff ff  "));
    let keys = "  key 0, at byte 4224, and key 1, at byte 4236:
    key 0  00001080  61 62                                            ab
    key 1  0000108c  61                                               a
                        ^^                                             ^
";
    assert!(shown(6, Some(1)).ends_with(keys));
    let keys = "  the upper end, element 2 of page 3, at byte 3178, and key 0 of page 10, at byte 10400:
    the upper end  00000c6a  70                                               p
    key 0          000028a0  73                                               s
                             ^^                                               ^
";
    assert!(shown(7, Some(0)).ends_with(keys), "{}", shown(7, Some(0)));
    assert!(shown(8, Some(1)).contains("  free id 1, at byte 2088:\n    00000828  0a 00 00 00 00 00 00 00 "));
    assert!(shown(8, None).contains("  its header, at byte 4096:\n"));
    assert!(!shown(2, None).contains("its header"));
    let named = breaches::all().into_iter().find(|breach| breach.fault.page == Some(99)).unwrap();
    let named = run_with("judge", &Temporary::file("named", &named.bytes), &[], named.sizes);
    assert!(named.text().contains("  element 0 of page 7, at byte 7200:\n    00001c20  63 00 00 00 00 00 00 00 "));
}

#[test]
fn get_writes_the_value_and_nothing_else() {
    let bytes = example();
    let characters = Image::of_file(&bytes).unwrap().bucket(b"characters").unwrap().unwrap();
    for (key, entry) in entries(characters).iter().filter(|(_, entry)| entry.kind == Kind::Data).step_by(25) {
        let key = std::str::from_utf8(key).unwrap();
        let done = run(&["get", EXAMPLE, key, "--bucket", "characters"]);
        assert_eq!((done.status, done.out.as_slice(), done.err.as_str()), (0, entry.value, ""));
    }
    let bucket = run(&["get", EXAMPLE, "characters"]);
    assert_eq!((bucket.status, bucket.out.len()), (0, 16));
    assert_eq!(bucket.err, "tyvarmos: \"characters\" is a bucket, root page 63\n");
}

#[test]
fn get_says_what_is_absent() {
    let lines: [(&[&str], &str); 4] = [
        (&["nobody"], "there is no key \"nobody\" in the main tree"),
        (&["x", "--bucket", "nowhere"], "there is no bucket \"nowhere\" in the main tree"),
        (
            &["x", "--bucket", "world", "--bucket", "motto"],
            "\"motto\" in the bucket \"world\" is a value, not a bucket",
        ),
        (&["--hex", "00ff"], "there is no key 0x00ff in the main tree"),
    ];
    for (words, why) in lines {
        let words = [&["get", EXAMPLE], words].concat();
        let done = run(&words);
        assert_eq!((done.status, done.text()), (1, ""));
        assert_eq!(done.err, format!("tyvarmos: {EXAMPLE}: {why}\n"));
        let json = run(&[words.as_slice(), &["--json"]].concat());
        assert_eq!((json.status, json.err.as_str()), (1, ""));
        assert!(json.text().contains("\"verdict\":\"absent\""));
    }
    assert_eq!(run(&["judge", EXAMPLE, "--bucket", "nowhere"]).status, 1);
    assert_eq!(run(&["stat", EXAMPLE, "--bucket", "nowhere"]).status, 1);
}

#[test]
fn any_key_can_be_asked_for() {
    let file = Temporary::file("keys", &leaf_of(&[b"", b"\0\xFF", b"--root", b"-x", b"0x61", b"a"]));
    let asked: [(&[&str], &str); 8] = [
        (&[""], "0"),
        (&["--hex", "00ff"], "1"),
        (&["--hex", "0x00FF"], "1"),
        (&["--", "--root"], "2"),
        (&["--", "-x"], "3"),
        (&["0x61"], "4"),
        (&["--hex", "0x61"], "5"),
        (&["a"], "5"),
    ];
    for (words, value) in asked {
        let options = options([1_024, 4, 3, 2]);
        let words: Vec<&str> = options.iter().map(String::as_str).chain(words.iter().copied()).collect();
        assert_eq!(run_on("get", &file, &words).text(), value, "{words:?}");
    }
}

/// An image whose root leaf has these keys, each with its index as value.
pub fn leaf_of(keys: &[&[u8]]) -> Vec<u8> {
    let values: Vec<String> = (0..keys.len()).map(|i| i.to_string()).collect();
    let entries = keys.iter().zip(&values).map(|(key, value)| Entry { tag: 0, key, value: value.as_bytes() });
    let block = pack(&Node { id: 3, leaf: true, entries: entries.collect() }, 1_024);
    let mut bytes = vec![0; 4 * 1_024];
    bytes[3 * 1_024..].copy_from_slice(&block);
    bytes
}

#[test]
fn get_reads_only_what_is_on_the_way() {
    let mut bytes = small::image();
    bytes[10 * 1_024..11 * 1_024].fill(0);
    let file = Temporary::file("way", &bytes);
    assert_eq!(run_on("judge", &file, &[]).status, 2);
    assert_eq!(run_on("get", &file, &["abc"]).text(), "abc".repeat(5));
    assert_eq!(run_on("get", &file, &["long"]).text(), "long".repeat(300));
    let refused = run_on("get", &file, &["t"]);
    assert_eq!((refused.status, refused.text()), (2, ""));
    assert!(refused.err.contains(": main tree refused: page 10: the header is not that of the page wanted"));
    let bucket = run_on("get", &file, &["s", "--bucket", "quay"]);
    assert_eq!(bucket.status, 2);
}

#[test]
fn files_that_are_no_images_are_refused() {
    let whole = small::image();
    let contents: [(&str, &[u8], u64); 8] = [
        ("empty", &[], 1),
        ("five", b"hello", 1),
        ("zeros", &[0; 9_000], 3),
        ("text", &[b'x'; 9_000], 3),
        ("one-page", &whole[..1_024], 1),
        ("no-second", &whole[..2_047], 1),
        ("half", &whole[..6_000], 1),
        ("one-less", &whole[..12 * 1_024 - 1], 1),
    ];
    for (name, content, number) in contents {
        let file = Temporary::file(name, content);
        for words in [["judge"].as_slice(), &["stat"], &["get", "ab"]] {
            let done = run_on(words[0], &file, &words[1..]);
            assert_eq!(done.status, 2, "{name}");
            let said = format!("{}{}", done.text(), done.err);
            assert!(said.contains(&format!("({number})\n")), "{name}: {said}");
        }
    }
}

#[test]
fn a_lost_meta_page_is_made_up_for() {
    let mut bytes = example();
    bytes[1_024..2_048].fill(0);
    let older = Temporary::file("older", &bytes);
    assert!(run_on("judge", &older, &[]).text().contains("meta page 0, transaction 9,"));
    bytes[..1_024].fill(0);
    let none = Temporary::file("none", &bytes);
    let lost = run_on("judge", &none, &[]);
    assert_eq!(lost.status, 2);
    assert!(lost.text().contains("  no meta page can be used: "));
    assert!(lost.text().contains("give --page-size, --page-count, --root and --freelist"));
    let partly = run_on("judge", &none, &["--page-size", "1024", "--page-count", "146", "--root", "65"]);
    assert_eq!(partly.status, 2);
    let judged = run_with("judge", &none, &[], [1_024, 146, 65, 66]);
    assert_eq!(judged.status, 0);
    assert!(judged.text().contains("the command line; no meta page can be used\n"));
    let words = ["--page-size", "1024", "--page-count", "146", "--root", "65", "--bucket", "world", "motto"];
    assert_eq!(run_on("get", &none, &words).text(), "Hold the wall.");
}

#[test]
fn one_number_of_a_meta_page_may_be_replaced() {
    let bags = run(&["judge", EXAMPLE, "--root", "51"]);
    assert!(bags.text().contains("107 entries in 22 pages"));
    assert!(bags.text().contains("meta page 1, transaction 10, next number 4, and the command line\n"));
    let size = run(&["judge", EXAMPLE, "--page-size", "4096"]);
    assert_eq!(size.status, 2);
    assert!(size.text().contains("(11)\n"));
    assert_eq!(run(&["judge", EXAMPLE, "--freelist", "65"]).status, 2);
    assert_eq!(run(&["judge", EXAMPLE, "--page-count", "161"]).status, 2);
    assert_eq!(run(&["judge", EXAMPLE, "--page-count", "160"]).status, 0);
}

#[test]
fn a_meta_page_that_names_too_much_is_refused() {
    for pages in [u64::MAX, 1 << 40, 32_769, 32_768, 13, 1, 0] {
        let mut bytes = small::image();
        put_meta(&mut bytes, 1, 1_024, pages, 9);
        let file = Temporary::file("much", &bytes);
        for words in [["judge"].as_slice(), &["stat"], &["get", "ab"]] {
            assert_eq!(run_on(words[0], &file, &words[1..]).status, 2, "{pages}");
        }
    }
}

#[test]
fn stat_tells_the_numbers() {
    let stat = run(&["stat", EXAMPLE, "--bucket", "accounts"]);
    let lines = [
        EXAMPLE,
        "  file      163840 bytes",
        "  meta 0    transaction 9, root page 144, freelist page 145, 146 pages of 1024 bytes, next number 4",
        "  meta 1    transaction 10, root page 65, freelist page 66, 146 pages of 1024 bytes, next number 4",
        "  tree      bucket \"accounts\", root page 15, freelist page 66",
        "  image     146 pages of 1024 bytes",
        "  by        meta page 1, transaction 10, next number 4",
        "  bucket    next number 60",
        "  free      43 pages",
        "  verdict   bucket \"accounts\" sound, it has no buckets: 60 entries in 12 pages, the freelist's included",
    ];
    assert_eq!((stat.status, stat.text().lines().collect::<Vec<_>>().as_slice()), (0, lines.as_slice()));
}

#[test]
fn json_tells_the_numbers() {
    let stat = json::parse(run(&["stat", EXAMPLE, "--json"]).text());
    let names = ["file_bytes", "meta_page", "tx_id", "next_int", "page_size", "page_count", "root", "freelist"];
    let numbers = [163_840, 1, 10, 4, 1_024, 146, 65, 66];
    assert_eq!(names.map(|name| stat[name].number()), numbers.map(Some));
    let counts = ["entries", "pages", "free_pages"].map(|name| stat[name].number());
    assert_eq!((stat["file"].text(), stat["verdict"].text(), counts), (EXAMPLE, "sound", [Some(4), Some(2), Some(43)]));
    assert!(matches!(&stat["seconds"], json::Value::Number(seconds) if seconds.starts_with("0.")));
    let get = json::parse(run(&["get", EXAMPLE, "--json", "--bucket", "world", "motto"]).text());
    assert_eq!(get["buckets_hex"].list()[0].text(), "776f726c64");
    let texts = ["key", "key_hex", "verdict", "kind", "value_hex"].map(|name| get[name].text());
    assert_eq!(texts, ["motto", "6d6f74746f", "found", "data", "486f6c64207468652077616c6c2e"]);
    assert_eq!((get["place"].number(), get["length"].number()), (Some(104_292), Some(14)));
}

#[test]
fn json_quotes_what_it_must() {
    let file = Temporary::file("a\"b\\c\nd", b"");
    let line = run_on("judge", &file, &["--json"]);
    assert!(line.text().contains("-a\\\"b\\\\c\\u000ad\","));
    assert_eq!(line.text().lines().count(), 1);
}

#[test]
fn damaged_files_get_the_verdict_of_the_library() {
    let whole = small::image();
    let mut rng = Rng::new(5);
    let mut statuses = [0; 3];
    for _ in 0..200 {
        let mut bytes = whole.clone();
        damage(&mut rng, &mut bytes, 1_024);
        let file = Temporary::file("damaged", &bytes);
        let judged = Image::of_file(&bytes).and_then(Image::judge);
        assert_eq!(run_on("judge", &file, &[]).status, if judged.is_ok() { 0 } else { 2 });
        let key = rng.pick(&small::KEYS);
        let looked = Meta::of(&bytes).and_then(|meta| meta.image(&bytes).lookup(key.as_bytes()));
        let done = run_on("get", &file, &["--", key]);
        let (status, value) = match looked {
            Ok(Some(entry)) => (0, entry.value),
            Ok(None) => (1, [].as_slice()),
            Err(_) => (2, [].as_slice()),
        };
        assert_eq!((done.status, done.out.as_slice()), (status, value));
        statuses[status as usize] += 1;
    }
    assert!(statuses.iter().all(|times| *times > 10), "{statuses:?}");
}
