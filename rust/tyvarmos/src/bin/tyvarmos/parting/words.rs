//! What is told of two keys, in words.

use super::{counted, Keys, Parting, Side};

const UNFIT: &str = "keys that fit this cannot be read here, and none are shown";

impl Keys {
    /// What is told of them, each with the name of its line: how many bytes are the same, and what comes then.
    pub fn lines(&self) -> Vec<(&'static str, String)> {
        match self {
            Keys::None => Vec::new(),
            Keys::Parted(parting) => parting.lines(),
            Keys::Unknown(common) => vec![("keys", format!("the answer says that {}; {UNFIT}", alike(*common)))],
        }
    }
}

impl Parting {
    /// How many bytes are the same and what comes then, each with the name of its line.
    fn lines(&self) -> Vec<(&'static str, String)> {
        let one_is_empty = self.sides.iter().any(|side| side.key.is_empty());
        match self.common {
            0 if self.is_equal() => vec![("keys", "both keys are empty".to_string())],
            _ if self.is_equal() => vec![("keys", format!("both keys are the same {}", counted(self.common)))],
            0 if one_is_empty => vec![("keys", self.next())],
            0 => vec![("keys", format!("the first byte differs: {}", self.next()))],
            _ => vec![("keys", alike(self.common as u64)), ("then", self.next())],
        }
    }

    /// What each key has where they part, and where in the file.
    fn next(&self) -> String {
        let (has, has_none) = match self.common {
            0 => ("begins with", "is empty"),
            _ => ("has", "has no more bytes"),
        };
        let next = |Side { name, at, key, .. }: &Side| match key.get(self.common) {
            Some(byte) => format!("{name} {has} 0x{byte:02x} at byte {} of the file", at + self.common as u64),
            None => format!("{name} {has_none}"),
        };
        self.sides.each_ref().map(next).join(", ")
    }
}

/// How many bytes are the same, as a sentence.
fn alike(common: u64) -> String {
    match common {
        0 => "the keys have no beginning in common".to_string(),
        1 => "the first byte is the same".to_string(),
        _ => format!("the first {common} bytes are the same"),
    }
}

#[cfg(test)]
mod tests {
    use super::super::tests::parting;
    use super::*;

    /// The lines that tell of two keys.
    fn told(first: &[u8], second: &[u8], common: u64) -> String {
        joined(&Keys::Parted(parting(first, second, common).unwrap()))
    }

    fn joined(keys: &Keys) -> String {
        keys.lines().iter().map(|(name, line)| format!("{name}: {line}\n")).collect()
    }

    #[test]
    fn of_keys_that_cannot_be_read_only_the_number_is_told() {
        let none = "keys: the answer says that the keys have no beginning in common; ";
        assert_eq!(joined(&Keys::Unknown(0)), format!("{none}{UNFIT}\n"));
        assert!(joined(&Keys::Unknown(11)).contains(" says that the first 11 bytes are the same; "));
        assert!(Keys::None.lines().is_empty());
    }

    #[test]
    fn each_way_to_part_has_its_words() {
        let byte = "keys: the first byte is the same\n\
                    then: key 0 has 0x63 at byte 101 of the file, key 1 has 0x62 at byte 201 of the file\n";
        assert_eq!(told(b"ac", b"ab", 1), byte);
        let eleven = "keys: the first 11 bytes are the same\n\
                      then: key 0 has 0x37 at byte 111 of the file, key 1 has 0x36 at byte 211 of the file\n";
        assert_eq!(told(b"account-0137", b"account-0136", 11), eleven);
        let first = "key 0 begins with 0x62 at byte 100 of the file, key 1 begins with 0x61 at byte 200 of the file";
        assert_eq!(told(b"b", b"a", 0), format!("keys: the first byte differs: {first}\n"));
        let two = "keys: the first 2 bytes are the same\nthen: ";
        assert_eq!(
            told(b"abc", b"ab", 2),
            format!("{two}key 0 has 0x63 at byte 102 of the file, key 1 has no more bytes\n")
        );
        assert_eq!(
            told(b"ab", b"ab\0", 2),
            format!("{two}key 0 has no more bytes, key 1 has 0x00 at byte 202 of the file\n")
        );
    }

    #[test]
    fn empty_and_equal_keys_have_their_words() {
        assert_eq!(told(b"ab", b"", 0), "keys: key 0 begins with 0x61 at byte 100 of the file, key 1 is empty\n");
        assert_eq!(told(b"", b"ab", 0), "keys: key 0 is empty, key 1 begins with 0x61 at byte 200 of the file\n");
        assert_eq!(told(b"ab", b"ab", 2), "keys: both keys are the same 2 bytes\n");
        assert_eq!(told(b"a", b"a", 1), "keys: both keys are the same byte\n");
        assert_eq!(told(b"", b"", 0), "keys: both keys are empty\n");
    }
}
