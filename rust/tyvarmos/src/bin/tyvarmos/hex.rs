//! Bytes as hex digits.

use std::fmt::Write;

const ROW: usize = 16;
/// Where in a row the digits start, how wide they are, and where the characters start.
const DIGITS_AT: usize = 10;
const DIGITS: usize = 3 * ROW - 1;
const CHARACTERS_AT: usize = DIGITS_AT + DIGITS + 2;
const MOST_ROWS: usize = 8;

/// The bytes as digits, two for each.
pub fn digits(bytes: &[u8]) -> String {
    bytes.iter().fold(String::with_capacity(2 * bytes.len()), |mut text, byte| {
        let _ = write!(text, "{byte:02x}");
        text
    })
}

/// The bytes that digits stand for, an 0x before them allowed.
pub fn parse(word: &[u8]) -> Option<Vec<u8>> {
    let word = word.strip_prefix(b"0x").unwrap_or(word);
    let digit = |byte: u8| char::from(byte).to_digit(16).map(|digit| digit as u8);
    let pairs = word.chunks(2).map(|pair| match pair {
        [high, low] => Some(16 * digit(*high)? + digit(*low)?),
        _ => None,
    });
    pairs.collect()
}

/// Rows of digits and characters, each with its place; a long stretch is cut.
pub fn rows(at: u64, bytes: &[u8]) -> String {
    let mut text = String::new();
    for (i, bytes) in bytes.chunks(ROW).take(MOST_ROWS).enumerate() {
        let _ = writeln!(text, "    {}", row(at + (i * ROW) as u64, bytes));
    }
    let left = bytes.len().saturating_sub(ROW * MOST_ROWS);
    if left > 0 {
        let _ = writeln!(text, "    and {left} bytes more");
    }
    text
}

/// A row of up to 16 bytes: their place, then digits, then characters.
pub fn row(at: u64, bytes: &[u8]) -> String {
    let pairs: Vec<String> = bytes.iter().map(|byte| format!("{byte:02x}")).collect();
    let plain = |byte: &u8| if matches!(byte, b' '..=b'~') { char::from(*byte) } else { '.' };
    let characters: String = bytes.iter().map(plain).collect();
    format!("{at:08x}  {:DIGITS$}  {characters}", pairs.join(" "))
}

/// What stands below a row to mark the digits and the character of one of its bytes.
pub fn marks(i: usize) -> String {
    let (digits, character) = (DIGITS_AT + 3 * i, CHARACTERS_AT + i);
    format!("{:digits$}^^{:gap$}^", "", "", gap = character - digits - 2)
}
