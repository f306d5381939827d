//! What the crate says when it panics, kept instead of printed.

use std::sync::Mutex;

static LAST: Mutex<String> = Mutex::new(String::new());

/// Keeps the message of each panic from here on.
pub fn keep() {
    std::panic::set_hook(Box::new(|panic| *LAST.lock().unwrap() = panic.to_string()));
}

/// The message of the last panic.
pub fn last() -> String {
    LAST.lock().unwrap().clone()
}
