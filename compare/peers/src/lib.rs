//! Other stores of keys and values, as Debian has them, in the calls that the benchmark needs.

pub mod lmdb;
pub mod sqlite;

use std::ffi::CString;
use std::path::Path;

/// A key and its value.
pub type Entry = (Vec<u8>, Vec<u8>);

/// A path as C has it.
fn c_path(path: &Path) -> CString {
    CString::new(path.as_os_str().as_encoded_bytes()).unwrap()
}
