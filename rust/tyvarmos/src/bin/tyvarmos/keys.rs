//! Keys and names for a person, cut where they are long.

use crate::hex;
use crate::text;

/// The bytes of a key that are shown at most, and of these the ones before the place where it parts from another.
const LONGEST: usize = 64;
const SHOWN_BEFORE: usize = 48;

/// A key or a name: as text where it is plain text, else as digits.
pub fn shown(bytes: &[u8]) -> String {
    written(bytes, is_plain(bytes))
}

/// The same, cut after the first bytes where it is long.
pub fn brief(bytes: &[u8]) -> String {
    cut(bytes, 0, is_plain(head(bytes)))
}

/// Two keys that are told apart: cut around the place where they part if one is long, and as digits if one is no text.
pub fn pair(keys: [&[u8]; 2]) -> [String; 2] {
    let start = start(keys);
    let plain = keys.iter().all(|key| is_plain(head(&key[start..])));
    keys.map(|key| cut(key, start, plain))
}

/// How many bytes two keys have in common, from the first on.
pub fn common(keys: [&[u8]; 2]) -> usize {
    keys[0].iter().zip(keys[1]).take_while(|(a, b)| a == b).count()
}

/// Whether bytes are text of which a terminal obeys nothing.
fn is_plain(bytes: &[u8]) -> bool {
    std::str::from_utf8(bytes).is_ok_and(|text| !text.chars().any(text::is_hidden))
}

/// Bytes as text, or as digits.
fn written(bytes: &[u8], plain: bool) -> String {
    match plain {
        true => format!("\"{}\"", String::from_utf8_lossy(bytes)),
        false => format!("0x{}", hex::digits(bytes)),
    }
}

/// As many of the first bytes as are shown at most, cut between characters.
fn head(bytes: &[u8]) -> &[u8] {
    if bytes.len() <= LONGEST {
        return bytes;
    }
    let is_text = |end: &usize| std::str::from_utf8(&bytes[..*end]).is_ok();
    &bytes[..(LONGEST - 3..=LONGEST).rev().find(is_text).unwrap_or(LONGEST)]
}

/// A key from a byte on, with its length where not all of it is shown.
fn cut(bytes: &[u8], start: usize, plain: bool) -> String {
    let shown = head(&bytes[start..]);
    if shown.len() == bytes.len() {
        return written(bytes, plain);
    }
    let dots = |left_out: bool| if left_out { ".." } else { "" };
    let (before, after) = (dots(start > 0), dots(start + shown.len() < bytes.len()));
    format!("{before}{}{after} ({} bytes)", written(shown, plain), bytes.len())
}

/// The index of the first byte that is shown of two keys: 0, or between characters before the place where they part.
fn start(keys: [&[u8]; 2]) -> usize {
    let common = common(keys);
    let longest = keys[0].len().max(keys[1].len());
    let start = common.saturating_sub(SHOWN_BEFORE).min(longest.saturating_sub(LONGEST));
    let is_first = |i: &usize| *i == 0 || !matches!(keys[0][*i], 0x80..=0xBF);
    (start..common.min(start + 4)).find(is_first).unwrap_or(start)
}

#[cfg(test)]
mod tests {
    use super::*;

    #[test]
    fn a_long_key_is_cut_between_characters() {
        assert_eq!(brief(b"short"), "\"short\"");
        assert_eq!(brief(&[b'x'; 64]), format!("\"{}\"", "x".repeat(64)));
        assert_eq!(brief(&[b'x'; 65]), format!("\"{}\".. (65 bytes)", "x".repeat(64)));
        assert_eq!(brief("ö".repeat(50).as_bytes()), format!("\"{}\".. (100 bytes)", "ö".repeat(32)));
        let odd = ["x".as_bytes(), "ö".repeat(50).as_bytes()].concat();
        assert_eq!(brief(&odd), format!("\"x{}\".. (101 bytes)", "ö".repeat(31)));
        assert_eq!(brief(&[0xFF; 1_000]), format!("0x{}.. (1000 bytes)", "ff".repeat(64)));
    }

    #[test]
    fn two_keys_are_cut_around_the_place_where_they_part() {
        assert_eq!(pair([b"ab", b"a"]), ["\"ab\"", "\"a\""]);
        assert_eq!(pair([b"", b""]), ["\"\"", "\"\""]);
        let stem = [b'x'; 100];
        let [above, below] = [b"b", b"a"].map(|tail| [&stem, tail.as_slice(), &stem].concat());
        let (before, after) = ("x".repeat(48), "x".repeat(15));
        let shown = ["b", "a"].map(|byte| format!("..\"{before}{byte}{after}\".. (201 bytes)"));
        assert_eq!(pair([&above, &below]), shown);
        let shown = [format!("..\"{}b\" (101 bytes)", "x".repeat(63)), format!("..\"{}\" (100 bytes)", "x".repeat(63))];
        assert_eq!(pair([&above[..101], &stem]), shown);
    }

    #[test]
    fn two_keys_are_both_text_or_both_digits() {
        assert_eq!(pair([b"a\xFF", b"a"]), ["0x61ff", "0x61"]);
        assert_eq!(pair([b"\n", b""]), ["0x0a", "0x"]);
        assert_eq!(pair(["ö".as_bytes(), "ä".as_bytes()]), ["\"ö\"", "\"ä\""]);
        let stem = "ö".repeat(50);
        let [above, below] = ["b", "a"].map(|tail| format!("x{stem}{tail}{stem}"));
        let shown = pair([above.as_bytes(), below.as_bytes()]);
        let part = |byte: &str| format!("..\"{}{byte}{}\".. (202 bytes)", "ö".repeat(24), "ö".repeat(7));
        assert_eq!(shown, [part("b"), part("a")]);
    }

    #[test]
    fn keys_that_differ_never_look_the_same() {
        let characters = ["a", "b", "ö", "ä", "€", "…", "😀", "😁"];
        for length in 0..150 {
            for [one, other] in characters.map(|one| characters.map(|other| [one, other])).concat() {
                for tail in [0, 1, 15, 16, 17, 63, 100] {
                    let key = |character: &str| format!("{}{character}{}", "x".repeat(length), "é".repeat(tail));
                    let [first, second] = pair([key(one).as_bytes(), key(other).as_bytes()]);
                    assert_eq!(first == second, one == other, "{first}, {second}");
                    assert!(first.contains('"') && second.contains('"'), "{first}, {second}");
                }
            }
        }
    }
}
