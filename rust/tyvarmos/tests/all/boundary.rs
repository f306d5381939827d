//! The C boundary: the header and the Rust declarations, held against the Rattle functions that are linked.

use tyvarmos::Number;

use crate::declarations::{body, field_counts, in_c, in_rattle, in_rust, Function};

const SHARD: &str = include_str!("../../../../crates/shard/src/lib.rt");
const EXPORTS: &str = include_str!("../../../../crates/shard_c/src/lib.rt");
const HEADER: &str = include_str!("../../../../include/tyvarmos.h");
const RAW: &str = include_str!("../../src/raw.rs");

#[test]
fn header_and_rust_declare_what_is_linked() {
    let linked = in_rattle(EXPORTS);
    let names: Vec<&str> = linked.iter().map(|function| function.name.as_str()).collect();
    assert_eq!(names, ["tyvarmos_lookup", "tyvarmos_quick", "tyvarmos_judge", "tyvarmos_meta"]);
    assert_eq!(in_c(HEADER), linked);
    assert_eq!(in_rust(RAW), linked);
}

/// A way to read declarations from a text.
type Reader = fn(&str) -> Vec<Function>;

#[test]
fn a_changed_declaration_is_seen() {
    let changes: [(Reader, &str, &str, &str); 9] = [
        (in_c, HEADER, "uint64_t page_size, uint64_t page_count", "uint64_t page_count, uint64_t page_size"),
        (in_c, HEADER, "uint64_t root_page, uint64_t freelist_page", "uint64_t freelist_page, uint64_t root_page"),
        (in_c, HEADER, "const void *key", "void *key"),
        (in_c, HEADER, "size_t key_len", "uint64_t key_len"),
        (in_rust, RAW, "page_size: u64, page_count: u64", "page_count: u64, page_size: u64"),
        (in_rust, RAW, "key: *const u8, key_len: usize", "key_len: usize, key: *const u8"),
        (in_rust, RAW, "answer: *mut u8", "answer: *const u8"),
        (in_rattle, EXPORTS, "    p: usize,\n    n: usize,\n", "    n: usize,\n    p: usize,\n"),
        (in_rattle, EXPORTS, "fn tyvarmos_meta", "fn tyvarmos_newest"),
    ];
    for (reader, text, from, to) in changes {
        assert!(text.contains(from), "{from}");
        assert_ne!(reader(&text.replacen(from, to, 1)), in_rattle(EXPORTS), "{to}");
    }
}

/// The number after a word.
fn number_after(text: &str, word: &str) -> usize {
    let rest = text.split_once(word).unwrap_or_else(|| panic!("no {word}")).1;
    rest.split(|character: char| !character.is_ascii_digit()).next().unwrap().parse().unwrap()
}

#[test]
fn answers_have_as_many_fields_on_each_side() {
    let told = [
        ("lookup", "tell", "LOOKUP"),
        ("quick", "tell", "LOOKUP"),
        ("judge", "tyvarmos_judge", "JUDGE"),
        ("meta", "tyvarmos_meta", "META"),
    ];
    for (name, teller, fields) in told {
        let counts = field_counts(body(SHARD, teller));
        let header = number_after(HEADER, &format!("TYVARMOS_{fields}_FIELDS = "));
        let wrapper = RAW.split_once(&format!("pub(crate) fn {name}(")).unwrap().1;
        assert_eq!((header, number_after(wrapper, "Answer<")), (counts[0], counts[0]), "{name}");
        assert!(counts.len() >= 2 && counts.iter().all(|count| *count == counts[0]), "{name}: {counts:?}");
    }
    for name in ["lookup", "quick"] {
        let told = format!("\n{{\n    tell({name}(image, p, n, root, key), answer)");
        assert!(body(SHARD, &format!("tyvarmos_{name}")).ends_with(&told), "{name}");
    }
    assert_eq!(field_counts("let values = [1, 2,\n 3,\n];let values = [0; 7];"), [3, 7]);
    assert_eq!(field_counts("give(answer, 0, &[f(x), 2]) let values = [1];give(answer, 1, &[0; 7])"), [2, 1, 7]);
}

/// A name as C writes its constants.
fn capitals(name: &str) -> String {
    let gap = |i: usize, letter: char| if i > 0 && letter.is_uppercase() { "_" } else { "" };
    name.char_indices().map(|(i, letter)| format!("{}{}", gap(i, letter), letter.to_ascii_uppercase())).collect()
}

#[test]
fn the_header_has_every_number() {
    for code in 1..=15 {
        let name = capitals(&format!("{:?}", Number::from(code)));
        assert_eq!(number_after(HEADER, &format!("TYVARMOS_{name} = ")) as u64, code);
    }
    assert_eq!(HEADER.matches("TYVARMOS_DONE = 0,").count(), 1);
    let listed = HEADER.split_once("enum tyvarmos_number {").unwrap().1.split('}').next().unwrap();
    assert_eq!(listed.matches(" = ").count(), 16);
    assert!(matches!(Number::from(16), Number::Unknown { .. }));
}
