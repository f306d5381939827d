//! A JSON object, written field by field.

use std::fmt::{self, Display, Write};

use crate::hex;
use crate::text;

/// An object in the making.
#[derive(Default)]
pub struct Object {
    text: String,
}

impl Object {
    /// Adds a number, or anything else that is JSON as it is shown.
    pub fn number(&mut self, name: &str, number: impl Display) {
        let comma = if self.text.is_empty() { "" } else { "," };
        let _ = write!(self.text, "{comma}\"{name}\":{number}");
    }

    /// Adds a number, or null where there is none.
    pub fn number_or_null(&mut self, name: &str, number: Option<impl Display>) {
        match number {
            Some(number) => self.number(name, number),
            None => self.number(name, "null"),
        }
    }

    /// Adds a text.
    pub fn text(&mut self, name: &str, text: &str) {
        self.number(name, quoted(text));
    }

    /// Adds bytes twice: as text, in which what is not UTF-8 is lost, and under `name_hex` as digits.
    pub fn bytes(&mut self, name: &str, bytes: &[u8]) {
        self.text(name, &String::from_utf8_lossy(bytes));
        self.text(&format!("{name}_hex"), &hex::digits(bytes));
    }

    /// Adds a list of byte strings twice, as `bytes` does.
    pub fn byte_strings(&mut self, name: &str, strings: &[impl AsRef<[u8]>]) {
        self.texts(name, strings.iter().map(|bytes| String::from_utf8_lossy(bytes.as_ref()).into_owned()));
        self.texts(&format!("{name}_hex"), strings.iter().map(|bytes| hex::digits(bytes.as_ref())));
    }

    /// Adds a list of texts.
    pub fn texts(&mut self, name: &str, texts: impl Iterator<Item = String>) {
        self.list(name, texts.map(|text| quoted(&text)));
    }

    /// Adds a list of what is JSON as it is shown.
    pub fn list(&mut self, name: &str, items: impl Iterator<Item = impl Display>) {
        let items: Vec<String> = items.map(|item| item.to_string()).collect();
        self.number(name, format!("[{}]", items.join(",")));
    }
}

impl Display for Object {
    fn fmt(&self, f: &mut fmt::Formatter) -> fmt::Result {
        write!(f, "{{{}}}", self.text)
    }
}

/// The text in quotes, with what JSON does not allow in them, and what a terminal would obey, written out.
fn quoted(text: &str) -> String {
    let mut quoted = String::from("\"");
    for character in text.chars() {
        match character {
            '"' | '\\' => quoted.extend(['\\', character]),
            hidden if text::is_hidden(hidden) => {
                let _ = write!(quoted, "\\u{:04x}", u32::from(hidden));
            }
            plain => quoted.push(plain),
        }
    }
    quoted + "\""
}

#[cfg(test)]
mod tests {
    use super::*;

    #[test]
    fn bytes_are_told_twice() {
        let mut object = Object::default();
        object.bytes("key", b"a\xFF\x1b\"");
        assert_eq!(object.to_string(), "{\"key\":\"a\u{FFFD}\\u001b\\\"\",\"key_hex\":\"61ff1b22\"}");
    }

    #[test]
    fn what_a_terminal_obeys_is_written_out() {
        assert_eq!(quoted("\u{9B}\u{7F}\u{202E}\u{FEFF}"), "\"\\u009b\\u007f\\u202e\\ufeff\"");
    }

    #[test]
    fn an_object_may_hold_others() {
        let mut inner = Object::default();
        inner.number_or_null("none", None::<u64>);
        let mut outer = Object::default();
        outer.number("inner", &inner);
        outer.list("pairs", [[1, 2]].iter().map(|[a, b]| format!("[{a},{b}]")));
        assert_eq!(outer.to_string(), "{\"inner\":{\"none\":null},\"pairs\":[[1,2]]}");
    }
}
