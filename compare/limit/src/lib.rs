//! Both lookups in plain C with the checks of the proved ones, for the benchmark: limit.c in a safe call.

use subject::{Answer, Lookup};

/// A lookup as limit.c has it.
type Function = unsafe extern "C" fn(*const u8, usize, u64, u64, u64, *const u8, usize, *mut u64) -> u64;

#[rustfmt::skip]
extern "C" {
    fn limit_lookup(
        image: *const u8, len: usize, p: u64, n: u64, root: u64, key: *const u8, key_len: usize, answer: *mut u64,
    ) -> u64;
    fn limit_quick(
        image: *const u8, len: usize, p: u64, n: u64, root: u64, key: *const u8, key_len: usize, answer: *mut u64,
    ) -> u64;
}

/// What a lookup answers, where every breach is 1 with all fields 0. The numbers are the page size, the page count and the
/// root.
pub fn looked(call: Lookup, image: &[u8], (p, n, root): (u64, u64, u64), key: &[u8]) -> Answer<7> {
    let function: Function = match call {
        Lookup::Full => limit_lookup,
        Lookup::Quick => limit_quick,
    };
    let (bytes, wanted) = (image.as_ptr(), key.as_ptr());
    let mut fields = [0; 7];
    let number = unsafe { function(bytes, image.len(), p, n, root, wanted, key.len(), fields.as_mut_ptr()) };
    Answer { number, fields }
}
