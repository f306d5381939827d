//! A strict reader of JSON, so that what the command prints is held to the format and looked at by name.

use std::ops::Index;

#[derive(Clone, Debug, PartialEq, Eq)]
pub enum Value {
    Null,
    Bool(bool),
    Number(String),
    Text(String),
    List(Vec<Value>),
    Object(Vec<(String, Value)>),
}

/// The value of a text that is JSON from its start to its end.
pub fn parse(text: &str) -> Value {
    let mut rest = text.trim_end_matches('\n');
    let value = value(&mut rest);
    assert_eq!(rest, "", "{text}");
    value
}

/// The objects of JSON lines.
pub fn lines(text: &str) -> Vec<Value> {
    assert!(text.is_empty() || text.ends_with('\n'));
    text.lines().map(parse).collect()
}

impl Value {
    /// The number, where it is one.
    pub fn number(&self) -> Option<u64> {
        if let Value::Number(number) = self {
            number.parse().ok()
        } else {
            None
        }
    }

    pub fn text(&self) -> &str {
        match self {
            Value::Text(text) => text,
            other => panic!("{other:?} is no text"),
        }
    }

    pub fn list(&self) -> &[Value] {
        match self {
            Value::List(list) => list,
            other => panic!("{other:?} is no list"),
        }
    }

    pub fn has(&self, name: &str) -> bool {
        matches!(self, Value::Object(fields) if fields.iter().any(|(field, _)| field == name))
    }
}

impl Index<&str> for Value {
    type Output = Value;

    fn index(&self, name: &str) -> &Value {
        let Value::Object(fields) = self else { panic!("{self:?} is no object") };
        let mut found = fields.iter().filter(|(field, _)| field == name);
        let (_, value) = found.next().unwrap_or_else(|| panic!("no {name} in {self:?}"));
        assert!(found.next().is_none(), "{name} twice in {self:?}");
        value
    }
}

/// Takes one value from the text.
fn value(rest: &mut &str) -> Value {
    match rest.as_bytes()[0] {
        b'{' => Value::Object(items(rest, '{', '}', |rest| {
            let name = text(rest);
            take(rest, ':');
            (name, value(rest))
        })),
        b'[' => Value::List(items(rest, '[', ']', value)),
        b'"' => Value::Text(text(rest)),
        b'0'..=b'9' => {
            let end =
                rest.find(|character: char| !character.is_ascii_digit() && character != '.').unwrap_or(rest.len());
            Value::Number(cut(rest, end).to_string())
        }
        _ => {
            let end = rest.find(|character: char| !character.is_ascii_lowercase()).unwrap_or(rest.len());
            match cut(rest, end) {
                "null" => Value::Null,
                "true" => Value::Bool(true),
                "false" => Value::Bool(false),
                other => panic!("{other:?} is no value"),
            }
        }
    }
}

/// Takes items with commas between them.
fn items<T>(rest: &mut &str, open: char, close: char, item: impl Fn(&mut &str) -> T) -> Vec<T> {
    let mut items = Vec::new();
    take(rest, open);
    while !rest.starts_with(close) {
        if !items.is_empty() {
            take(rest, ',');
        }
        items.push(item(rest));
    }
    take(rest, close);
    items
}

/// Takes a text in quotes.
fn text(rest: &mut &str) -> String {
    let mut text = String::new();
    take(rest, '"');
    loop {
        let character = rest.chars().next().unwrap();
        cut(rest, character.len_utf8());
        match character {
            '"' => return text,
            '\\' if rest.starts_with('u') => {
                let digits = &cut(rest, 5)[1..];
                text.push(char::from_u32(u32::from_str_radix(digits, 16).unwrap()).unwrap());
            }
            '\\' => text.push_str(cut(rest, 1)),
            plain => {
                assert!(!plain.is_control(), "a control character in a text");
                text.push(plain);
            }
        }
    }
}

fn take(rest: &mut &str, character: char) {
    assert_eq!(cut(rest, 1), character.to_string());
}

/// Cuts so many bytes off the text and answers them.
fn cut<'a>(rest: &mut &'a str, length: usize) -> &'a str {
    let (head, tail) = rest.split_at(length);
    *rest = tail;
    head
}
