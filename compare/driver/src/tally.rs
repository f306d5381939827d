//! Counts of what passed and failed, and the first failures in words.

const SHOWN: u64 = 5;

#[derive(Default)]
pub struct Tally {
    pub passed: u64,
    pub failed: u64,
}

impl Tally {
    pub fn check(&mut self, holds: bool, what: impl FnOnce() -> String) {
        if holds {
            self.passed += 1;
            return;
        }
        self.failed += 1;
        if self.failed <= SHOWN {
            println!("  FAILED: {}", cut(what(), 800));
        }
    }

    /// Checks that two answers are the same.
    pub fn same<T: PartialEq + std::fmt::Debug>(&mut self, got: T, expected: T, what: impl FnOnce() -> String) {
        let holds = got == expected;
        self.check(holds, || format!("got {}, expected {}: {}", brief(&got), brief(&expected), what()));
    }

    pub fn add(&mut self, other: &Tally) {
        self.passed += other.passed;
        self.failed += other.failed;
    }
}

/// The value in words, cut short.
fn brief<T: std::fmt::Debug>(value: &T) -> String {
    cut(format!("{value:?}"), 200)
}

/// The beginning of a text.
fn cut(mut text: String, length: usize) -> String {
    if text.len() > length {
        text.truncate(text.floor_char_boundary(length));
        text += "..";
    }
    text
}
