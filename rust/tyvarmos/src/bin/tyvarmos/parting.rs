//! Two keys that are out of order, one above the other, the first byte that differs marked: read again in Rust, not
//! proved.

mod words;

use std::fmt::Write;

use crate::hex;
use crate::keys;
use crate::layout::{Block, Part};
use crate::range::{End, Range};

/// The bytes of each key that are shown at most, and of these the ones before the first that differs.
const SHOWN: usize = 16;
const SHOWN_BEFORE: usize = 11;

/// What can be told of the keys that a fault is about.
pub enum Keys {
    /// It is about no keys.
    None,
    /// They are these.
    Parted(Parting),
    /// They cannot be read, or do not part where the fault says: only its number of bytes is told.
    Unknown(u64),
}

/// A key: what it is called, of which page it is where two are in question, and where in the file it starts.
pub struct Side {
    name: String,
    origin: String,
    at: u64,
    pub key: Vec<u8>,
}

/// A key, and before it the one that it is held against.
pub struct Parting {
    pub sides: [Side; 2],
    common: usize,
}

impl Side {
    /// A key of the fault's own block.
    fn of(part: Part) -> Side {
        Side { name: part.what, origin: String::new(), at: part.at, key: part.bytes.to_vec() }
    }
}

impl Parting {
    /// An element's key and the one before it, if they are out of order and have so many bytes in common.
    pub fn of_order(block: &Block, i: u64, common: u64) -> Option<Parting> {
        let sides = [Side::of(block.key_part(i.checked_sub(1)?)?), Side::of(block.key_part(i)?)];
        Parting::of(sides, common).filter(|parting| parting.sides[1].key <= parting.sides[0].key)
    }

    /// An element's key and the end of its range that it crosses, if they have so many bytes in common.
    pub fn of_range(block: &Block, i: u64, range: &Range, common: u64) -> Option<Parting> {
        let (name, End { key, at, step }) = range.crossed()?;
        let origin = format!(", element {} of page {}", step.element, step.page);
        let end = Side { name: name.to_string(), origin, at: *at, key: key.clone() };
        let own = Side { origin: format!(" of page {}", block.header.id), ..Side::of(block.key_part(i)?) };
        Parting::of([end, own], common)
    }

    /// These keys, if they have so many bytes in common.
    fn of(sides: [Side; 2], common: u64) -> Option<Parting> {
        let found = keys::common([&sides[0].key, &sides[1].key]);
        (found as u64 == common).then_some(Parting { sides, common: found })
    }

    /// Whether the keys are the same.
    fn is_equal(&self) -> bool {
        self.sides[0].key == self.sides[1].key
    }

    /// The index of the first byte that is shown.
    fn start(&self) -> usize {
        let longest = self.sides.iter().map(|side| side.key.len()).max().unwrap_or(0);
        match self.is_equal() {
            true => 0,
            false => self.common.saturating_sub(SHOWN_BEFORE).min(longest.saturating_sub(SHOWN)),
        }
    }

    /// A heading, both keys around the first byte that differs, marks below that, and how much is not shown.
    pub fn rows(&self) -> String {
        let [first, second] = &self.sides;
        let (start, width) = (self.start(), first.name.len().max(second.name.len()));
        let heading = |Side { name, origin, at, .. }: &Side| format!("{name}{origin}, at byte {at}");
        let mut text = format!("  {}, and {}:\n", heading(first), heading(second));
        for Side { name, at, key, .. } in &self.sides {
            let shown = &key[start..key.len().min(start + SHOWN)];
            let row = if key.is_empty() { "(empty)".to_string() } else { hex::row(at + start as u64, shown) };
            let _ = writeln!(text, "    {name:width$}  {row}");
        }
        if !self.is_equal() {
            let _ = writeln!(text, "    {:width$}  {}", "", hex::marks(self.common - start));
        }
        text + &self.left_out(start)
    }

    /// A line that says how many bytes are not shown, where there are any.
    fn left_out(&self, start: usize) -> String {
        let before = (start > 0).then(|| format!("the first {} of both", counted(start)));
        let after = self.sides.iter().filter(|side| side.key.len() > start + SHOWN);
        let after = after.map(|side| format!("the last {} of {}", counted(side.key.len() - start - SHOWN), side.name));
        let parts: Vec<String> = before.into_iter().chain(after).collect();
        if parts.is_empty() {
            return String::new();
        }
        format!("    not shown: {}\n", parts.join(", "))
    }
}

/// So many bytes, in words.
fn counted(bytes: usize) -> String {
    if bytes == 1 {
        return "byte".to_string();
    }
    format!("{bytes} bytes")
}

impl Keys {
    /// The keys in rows, where they are known.
    pub fn rows(&self) -> Option<String> {
        match self {
            Keys::Parted(parting) => Some(parting.rows()),
            _ => None,
        }
    }
}

#[cfg(test)]
mod tests {
    use super::*;

    /// The parting of two keys at bytes 100 and 200, if they have so many bytes in common.
    pub fn parting(first: &[u8], second: &[u8], common: u64) -> Option<Parting> {
        let side =
            |name: &str, at, key: &[u8]| Side { name: name.to_string(), origin: String::new(), at, key: key.to_vec() };
        Parting::of([side("key 0", 100, first), side("key 1", 200, second)], common)
    }

    #[test]
    fn keys_that_part_elsewhere_are_not_told() {
        for common in [0, 1, 3, 4, u64::MAX] {
            assert!(parting(b"abd", b"abc", common).is_none());
        }
        assert!(parting(b"abd", b"abc", 2).is_some());
        assert!(parting(b"abc", b"abc", 3).is_some());
        assert!(Keys::Unknown(2).rows().is_none());
    }

    #[test]
    fn the_marks_stand_below_the_first_byte_that_differs() {
        for length in 1..60 {
            for common in 0..length {
                let (mut first, second) = (vec![b'x'; length], vec![b'x'; length + 7 * (length % 2)]);
                first[common] = b'y';
                let rows = parting(&first, &second, common as u64).unwrap().rows();
                let lines: Vec<&str> = rows.lines().collect();
                let (digits, character) = (lines[3].find("^^").unwrap(), lines[3].rfind('^').unwrap());
                assert_eq!([1, 2].map(|row| &lines[row][digits..digits + 2]), ["79", "78"], "{rows}");
                assert_eq!([1, 2].map(|row| &lines[row][character..=character]), ["y", "x"], "{rows}");
                assert_eq!(lines.len() > 4, length.max(second.len()) > SHOWN, "{rows}");
            }
        }
    }

    #[test]
    fn long_keys_are_shown_around_the_first_byte_that_differs() {
        let (mut first, mut second) = (vec![b'x'; 300], vec![b'x'; 41]);
        (first[30], second[30]) = (b'b', b'a');
        let rows = parting(&first, &second, 30).unwrap().rows();
        let expected = "  key 0, at byte 100, and key 1, at byte 200:
    key 0  00000077  78 78 78 78 78 78 78 78 78 78 78 62 78 78 78 78  xxxxxxxxxxxbxxxx
    key 1  000000db  78 78 78 78 78 78 78 78 78 78 78 61 78 78 78 78  xxxxxxxxxxxaxxxx
                                                      ^^                         ^
    not shown: the first 19 bytes of both, the last 265 bytes of key 0, the last 6 bytes of key 1
";
        assert_eq!(rows, expected);
        let rows = parting(&second[..17], &[b'x'; 16], 16).unwrap().rows();
        assert!(rows.ends_with("    not shown: the first byte of both\n"), "{rows}");
    }

    #[test]
    fn empty_and_equal_keys_have_no_false_marks() {
        let rows = parting(b"", b"", 0).unwrap().rows();
        assert_eq!(rows, "  key 0, at byte 100, and key 1, at byte 200:\n    key 0  (empty)\n    key 1  (empty)\n");
        assert!(!parting(b"ab", b"ab", 2).unwrap().rows().contains('^'));
        let rows = parting(b"ab", b"", 0).unwrap().rows();
        assert!(rows.contains("    key 1  (empty)\n                     ^^ "), "{rows}");
    }
}
