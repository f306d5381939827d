//! Order 2: how many bytes two keys have in common that are out of order, or one out of its range.

use reading::block::Entry;
use reading::layout::put_u64;
use reading::pack::{pack, Node};
use tyvarmos::{Fault, Image, Number};

use crate::breaches;
use crate::command::run_with;
use crate::files::{run_on, Temporary};
use crate::json::{self, Value};
use crate::small::{self, put_header, tree, FREELIST};

const P: u64 = 1_024;
const N: u64 = 8;
const ROOT: u64 = 2;
const LEFT: u64 = 3;
const RIGHT: u64 = 4;
const LIST: u64 = 7;
const SIZES: [u64; 4] = [P, N, ROOT, LIST];

/// Lengths around those of the words that a comparison may go by.
const LENGTHS: [usize; 13] = [0, 1, 2, 7, 8, 9, 11, 15, 16, 17, 23, 24, 200];

/// A leaf on a page with its keys, or a branch with its separators and their pages.
enum Block<'a> {
    Leaf(u64, &'a [&'a [u8]]),
    Branch(u64, &'a [(&'a [u8], u64)]),
}

/// The bytes of these blocks and an empty freelist.
fn bytes(blocks: &[Block]) -> Vec<u8> {
    let mut bytes = vec![0; (N * P) as usize];
    for block in blocks {
        let (id, leaf, entries) = match block {
            Block::Leaf(id, keys) => (*id, true, keys.iter().map(|key| (*key, 0)).collect()),
            Block::Branch(id, children) => (*id, false, children.to_vec()),
        };
        let entries = entries.into_iter().map(|(key, tag)| Entry { tag, key, value: &[] }).collect();
        let block = pack(&Node { id, leaf, entries }, P);
        bytes[(id * P) as usize..][..block.len()].copy_from_slice(&block);
    }
    put_header(&mut bytes[(LIST * P) as usize..], LIST, 4, 0);
    bytes
}

fn image(bytes: &[u8]) -> Image<'_> {
    Image::new(bytes, tree(SIZES))
}

fn judged(bytes: &[u8]) -> Fault {
    image(bytes).judge().unwrap_err()
}

/// A key, one that is below it or the same, and how many bytes they have in common.
fn pairs() -> Vec<(Vec<u8>, Vec<u8>, u64)> {
    let tails: [(&[u8], &[u8]); 7] = [
        (b"b", b"a"),
        (&[0x80], &[0x7F]),
        (&[1], &[0]),
        (b"b, then alike", b"a, then alike"),
        (b"a", b""),
        (b"aa", b""),
        (b"", b""),
    ];
    let pair = |length: usize, (above, below): (&[u8], &[u8])| {
        let stem: Vec<u8> = (0..length).map(|i| b'k' + (i % 5) as u8).collect();
        ([&stem, above].concat(), [&stem, below].concat(), length as u64)
    };
    LENGTHS.iter().flat_map(|length| tails.map(|tails| pair(*length, tails))).collect()
}

#[test]
fn keys_out_of_order_tell_their_common_beginning() {
    for (above, below, common) in pairs() {
        let expected = Fault::at_element(Number::Order, ROOT, 1).with_common(common);
        let leaf = bytes(&[Block::Leaf(ROOT, &[&above, &below])]);
        let branch = bytes(&[Block::Branch(ROOT, &[(&above, LEFT), (&below, RIGHT)])]);
        for bytes in [leaf, branch] {
            assert_eq!(judged(&bytes), expected, "{above:?}, {below:?}");
            assert_eq!(image(&bytes).lookup(&above).unwrap_err(), expected);
            assert_eq!(image(&bytes).lookup(b"").unwrap_err(), expected);
        }
    }
}

#[test]
fn a_key_below_its_range_is_held_against_the_lower_end() {
    for (above, below, common) in pairs().into_iter().filter(|(above, below, _)| above != below) {
        let bytes = bytes(&[Block::Branch(ROOT, &[(&above, LEFT)]), Block::Leaf(LEFT, &[&below, &above])]);
        assert_eq!(judged(&bytes), Fault::at_element(Number::Range, LEFT, 0).with_common(common));
        assert!(image(&bytes).lookup(&below).unwrap().is_some());
    }
}

#[test]
fn a_key_past_its_range_is_held_against_the_upper_end() {
    for (above, below, common) in pairs().into_iter().filter(|(_, below, _)| !below.is_empty()) {
        let root = [(b"".as_slice(), LEFT), (&below, RIGHT)];
        let bytes =
            bytes(&[Block::Branch(ROOT, &root), Block::Leaf(LEFT, &[b"", &above]), Block::Leaf(RIGHT, &[&below])]);
        assert_eq!(judged(&bytes), Fault::at_element(Number::Range, LEFT, 1).with_common(common));
    }
}

#[test]
fn free_ids_have_no_common_beginning() {
    let mut bytes = small::image();
    put_u64(&mut bytes, (FREELIST * P) as usize + 32, 11);
    let fault = small::of(&bytes).judge().unwrap_err();
    assert_eq!(fault, Fault::at_element(Number::Order, FREELIST, 1));
    assert_eq!(fault.common, 0);
    let words = run_on("judge", &Temporary::file("ids", &bytes), &[]);
    assert!(words.text().contains("  cause     11 is not above 11\n"));
    assert!(!words.text().contains("the same") && !words.text().contains("  keys "), "{}", words.text());
}

#[test]
fn other_numbers_have_no_common_beginning() {
    for breach in breaches::all() {
        let fault = breach.image().judge().unwrap_err();
        assert_eq!(fault.common > 0, fault.number == Number::Order, "{fault}");
        let json =
            json::parse(run_with("judge", &Temporary::file("other", &breach.bytes), &["--json"], breach.sizes).text());
        assert_eq!(json["common"].number(), Some(fault.common));
    }
}

/// What `judge` says of these blocks, in words and as JSON.
fn told(blocks: &[Block]) -> (String, Value) {
    let file = Temporary::file("parting", &bytes(blocks));
    let words = run_with("judge", &file, &[], SIZES).text().to_string();
    (words, json::parse(run_with("judge", &file, &["--json"], SIZES).text()))
}

#[test]
fn both_keys_are_shown_and_the_first_byte_that_differs_is_marked() {
    let leaf = Block::Leaf(ROOT, &[b"account-0010", b"account-0012", b"account-0011"]);
    let (words, json) = told(&[leaf]);
    let sentence = "  page 2, element 2: this key (in a freelist, this id) is not above the one before it, the first 11 bytes are the same (6)\n";
    assert!(words.contains(sentence), "{words}");
    let lines = "  keys      the first 11 bytes are the same
  then      key 1 has 0x32 at byte 2199 of the file, key 2 has 0x31 at byte 2211 of the file
";
    assert!(words.contains(lines), "{words}");
    let rows = "  key 1, at byte 2188, and key 2, at byte 2200:
    key 1  0000088c  61 63 63 6f 75 6e 74 2d 30 30 31 32              account-0012
    key 2  00000898  61 63 63 6f 75 6e 74 2d 30 30 31 31              account-0011
                                                      ^^                         ^
";
    assert!(words.ends_with(rows), "{words}");
    assert_eq!((json["number"].number(), json["common"].number()), (Some(6), Some(11)));
    let keys: Vec<&str> = json["context"]["keys_hex"].list().iter().map(Value::text).collect();
    assert_eq!(keys, ["6163636f756e742d30303132", "6163636f756e742d30303131"]);
}

#[test]
fn get_shows_them_too() {
    let file = Temporary::file("parting-get", &bytes(&[Block::Leaf(ROOT, &[b"ab", b"aa"])]));
    let get = run_with("get", &file, &["ab"], SIZES);
    assert_eq!((get.status, get.text()), (2, ""));
    assert!(get.err.contains(" is not above the one before it, the first byte is the same (6)\n"), "{}", get.err);
    let lines = "  keys      the first byte is the same\n  then      key 0 has 0x62 at byte 2145 of the file, ";
    assert!(get.err.contains(lines), "{}", get.err);
    assert!(get.err.contains("    key 1  00000862  61 61 "), "{}", get.err);
    let json = json::parse(run_with("get", &file, &["ab", "--json"], SIZES).text());
    assert_eq!((json["number"].number(), json["common"].number()), (Some(6), Some(1)));
}

#[test]
fn the_end_that_is_crossed_is_named_with_its_separator() {
    let root: &[(&[u8], u64)] = &[(b"b", LEFT), (b"m12345678", RIGHT)];
    let below = [Block::Branch(ROOT, root), Block::Leaf(LEFT, &[b"b"]), Block::Leaf(RIGHT, &[b"m12345677"])];
    let (words, json) = told(&below);
    let range =
        "  range     from \"m12345678\" (element 1 of page 2) to the highest key: the key is below its lower end\n";
    assert!(words.contains(range), "{words}");
    let lines = "  keys      the first 8 bytes are the same
  then      the lower end has 0x38 at byte 2137 of the file, key 0 has 0x37 at byte 4168 of the file
";
    assert!(words.contains(lines), "{words}");
    let heading = "  the lower end, element 1 of page 2, at byte 2129, and key 0 of page 4, at byte 4160:\n";
    assert!(words.contains(heading), "{words}");
    let context = &json["context"];
    assert_eq!((context["range"]["crossed"].text(), context["keys"].list()[0].text()), ("low", "m12345677"));
    assert_eq!((context["range"]["low"]["key"].text(), json["common"].number()), ("m12345678", Some(8)));
}

#[test]
fn an_upper_end_may_be_a_separator_two_levels_up() {
    let root: &[(&[u8], u64)] = &[(b"b", LEFT), (b"m12345678", RIGHT)];
    let branches = [Block::Branch(ROOT, root), Block::Branch(LEFT, &[(b"c", 5), (b"d", 6)])];
    let leaves = [Block::Leaf(5, &[b"c"]), Block::Leaf(6, &[b"dd", b"m12345678"])];
    let [[one, two], [three, four]] = [branches, leaves];
    let (words, json) = told(&[one, two, three, four]);
    let range = "from \"d\" (element 1 of page 3) up to, not including, \"m12345678\" (element 1 of page 2)";
    assert!(words.contains(&format!("  range     {range}: the key is not below its upper end\n")), "{words}");
    assert!(words.contains("  keys      both keys are the same 9 bytes\n"), "{words}");
    let heading = "  the upper end, element 1 of page 2, at byte 2129, and key 1 of page 6, at byte 6242:\n";
    assert!(words.contains(heading), "{words}");
    assert!(!words.contains('^'));
    let high = &json["context"]["range"]["high"];
    assert_eq!((high["page"].number(), high["element"].number(), json["page"].number()), (Some(2), Some(1), Some(6)));
}

#[test]
fn long_and_odd_keys_are_shown_in_part_and_plainly() {
    let [above, below] =
        [[0xFF, 0x1B, b'b'], [0xFF, 0x1B, b'a']].map(|tail| [[b'k'; 100].as_slice(), &tail, &[b'z'; 50]].concat());
    let (words, json) = told(&[Block::Leaf(ROOT, &[&above, &below])]);
    let lines = "  keys      the first 102 bytes are the same\n  then      key 0 has 0x62 at byte 2246 of the file, ";
    assert!(words.contains(lines), "{words}");
    assert!(words.contains("  6b 6b 6b 6b 6b 6b 6b 6b 6b ff 1b 62 7a 7a 7a 7a  kkkkkkkkk..bzzzz\n"), "{words}");
    let left_out =
        "    not shown: the first 91 bytes of both, the last 46 bytes of key 0, the last 46 bytes of key 1\n";
    assert!(words.ends_with(left_out), "{words}");
    assert!(!words.contains('\u{1B}'));
    assert_eq!(json["common"].number(), Some(102));
}

/// Two keys of 201 bytes that part after 100.
fn long_pair() -> [Vec<u8>; 2] {
    [b'a', b'b'].map(|byte| [[b'k'; 100].as_slice(), &[byte], &[b'z'; 100]].concat())
}

/// What is shown of such a key in a line.
fn shown_of(byte: char) -> String {
    format!("..\"{}{byte}{}\".. (201 bytes)", "k".repeat(48), "z".repeat(15))
}

#[test]
fn long_keys_are_told_apart_in_each_line() {
    let [below, above] = long_pair();
    let (words, json) = told(&[Block::Leaf(ROOT, &[&above, &below])]);
    let cause = format!("{} is not above {}", shown_of('a'), shown_of('b'));
    assert!(words.contains(&format!("  cause     {cause}\n")), "{words}");
    assert_eq!(json["context"]["cause"].text(), cause);
    let root: &[(&[u8], u64)] = &[(&below, LEFT), (&above, RIGHT)];
    let (words, _) = told(&[Block::Branch(ROOT, root), Block::Leaf(LEFT, &[&above]), Block::Leaf(RIGHT, &[b"l"])]);
    let [low, high] = [shown_of('a'), shown_of('b')];
    let range = format!("from {low} (element 0 of page 2) up to, not including, {high} (element 1 of page 2)");
    assert!(words.contains(&format!("  range     {range}: the key is not below its upper end\n")), "{words}");
    assert!(words.contains("  keys      both keys are the same 201 bytes\n"), "{words}");
}

/// The bytes that are told with their place in the file, each as it stands there.
fn bytes_told(bytes: &[u8], words: &str) -> Vec<u8> {
    let told = words.split(" 0x").filter_map(|after| {
        let (digits, rest) = after.split_once(" at byte ")?;
        let place: usize = rest.split_once(" of the file")?.0.parse().ok()?;
        Some((u8::from_str_radix(digits, 16).ok()?, place))
    });
    let told = told.inspect(|(byte, place)| assert_eq!(bytes[*place], *byte, "{words}"));
    told.map(|(byte, _)| byte).collect()
}

/// The bytes that the marks stand below, by their digits.
fn bytes_marked(words: &str) -> Vec<u8> {
    let lines: Vec<&str> = words.lines().collect();
    let Some((i, at)) = lines.iter().enumerate().find_map(|(i, line)| Some((i, line.find("^^")?))) else {
        return Vec::new();
    };
    lines[i - 2..i].iter().filter_map(|row| u8::from_str_radix(row.get(at..at + 2)?, 16).ok()).collect()
}

#[test]
fn what_is_told_and_marked_stands_in_the_file() {
    for (above, below, common) in pairs() {
        let next: Vec<u8> = [&above, &below].into_iter().filter_map(|key| key.get(common as usize).copied()).collect();
        let order = [Block::Leaf(ROOT, &[&above, &below])];
        let range = [Block::Branch(ROOT, &[(&above, LEFT)]), Block::Leaf(LEFT, &[&below])];
        let images: [&[Block]; 2] = [&order, &range];
        for blocks in &images[..if next.is_empty() { 1 } else { 2 }] {
            let (words, json) = told(blocks);
            assert_eq!(json["common"].number(), Some(common), "{words}");
            assert_eq!(
                (bytes_told(&bytes(blocks), &words), bytes_marked(&words)),
                (next.clone(), next.clone()),
                "{words}"
            );
            assert_eq!(words.contains("  keys      both keys are "), next.is_empty(), "{words}");
        }
    }
}
