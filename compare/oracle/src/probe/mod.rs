//! Plain calls that reach the parts of the crate that it keeps to itself.

pub mod edit;
pub mod file;
pub mod free;
pub mod meta_page;
pub mod search;
pub mod speed;
pub mod split;

mod aligned;
mod build;

pub use build::{write_content, Content, Item};

use std::panic::{catch_unwind, AssertUnwindSafe};

/// The call's answer, or nothing where the crate panics.
fn caught<T>(call: impl FnOnce() -> T) -> Option<T> {
    catch_unwind(AssertUnwindSafe(call)).ok()
}
