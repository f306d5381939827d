//! Names for a person: whatever bytes they hold, nothing that a terminal would obey.

use std::fmt::Write;
use std::os::unix::ffi::OsStrExt;
use std::path::Path;

/// Whether a character is written out, since it steers a terminal, ends a line or turns the direction of writing.
pub fn is_hidden(character: char) -> bool {
    let turns =
        matches!(character, '\u{61C}' | '\u{200B}'..='\u{200F}' | '\u{2028}'..='\u{202E}' | '\u{2060}'..='\u{206F}');
    character.is_control() || turns || character == '\u{FEFF}'
}

/// The bytes as text; a hidden character, a backslash and what is not UTF-8 are written out, so that none is lost.
pub fn plain(bytes: &[u8]) -> String {
    let mut text = String::with_capacity(bytes.len());
    let mut rest = bytes;
    while !rest.is_empty() {
        let valid = std::str::from_utf8(rest).map_or_else(|error| error.valid_up_to(), str::len);
        let (head, tail) = rest.split_at(valid);
        add_plain(&mut text, &String::from_utf8_lossy(head));
        let (odd, next) = tail.split_at(tail.len().min(1));
        write_out(&mut text, odd);
        rest = next;
    }
    text
}

/// Adds characters, the hidden ones and the backslash written out.
fn add_plain(text: &mut String, characters: &str) {
    for character in characters.chars() {
        match character {
            '\\' => text.push_str("\\\\"),
            hidden if is_hidden(hidden) => write_out(text, hidden.encode_utf8(&mut [0; 4]).as_bytes()),
            shown => text.push(shown),
        }
    }
}

/// The path as text, as `plain` has it.
pub fn path(path: &Path) -> String {
    plain(path.as_os_str().as_bytes())
}

/// Adds bytes as \xNN.
fn write_out(text: &mut String, bytes: &[u8]) {
    for byte in bytes {
        let _ = write!(text, "\\x{byte:02x}");
    }
}

#[cfg(test)]
mod tests {
    use super::*;

    #[test]
    fn nothing_that_a_terminal_obeys_is_left() {
        assert_eq!(plain(b"shard-7.db"), "shard-7.db");
        assert_eq!(plain("größe".as_bytes()), "größe");
        assert_eq!(plain(b"a\x1b[2Jb\nc\\d\xFF"), "a\\x1b[2Jb\\x0ac\\\\d\\xff");
        assert_eq!(plain("\u{9B}2J\u{202E}bd".as_bytes()), "\\xc2\\x9b2J\\xe2\\x80\\xaebd");
        let every: Vec<u8> = (0..=255).collect();
        assert!(!plain(&every).chars().any(is_hidden));
    }

    #[test]
    fn no_two_names_look_alike() {
        assert_ne!(plain(b"\\x1b"), plain(b"\x1b"));
    }
}
