//! Images, blocks and tables with numbers changed at random: the subject beside the reading, refused or not,
//! and beside the crate wherever the answer is 0.

mod block;
mod image;
mod table;

use super::commons::Commons;
use super::Run;
use crate::make::fields::{get, put};
use crate::rng::Rng;

/// How often each number was given back, and which common beginnings came with 6 and 7.
#[derive(Default)]
struct Seen {
    numbers: [u64; 16],
    commons: Commons,
}

impl Seen {
    /// Adds a number, and the last field that came with it.
    fn add(&mut self, number: u64, common: u64) {
        self.numbers[number as usize] += 1;
        self.commons.add(number, common);
    }
}

pub fn run(run: &mut Run) {
    let mut seen = Seen::default();
    for round in 0..run.rounds {
        image::run(run, round, &mut seen);
        (0..4).for_each(|_| block::run(run, round, &mut seen));
        table::run(run, round, &mut seen);
    }
    let numbers = seen.numbers.iter().enumerate().map(|(number, times)| format!("{number}: {times}"));
    println!("  numbers given back in the part hostile: {}", numbers.collect::<Vec<_>>().join(", "));
    seen.commons.tell(run);
}

/// Changes a number or a byte of the block that starts at `at`.
pub fn change(rng: &mut Rng, bytes: &mut [u8], at: usize, n: u64) {
    let size = if bytes[at + 8] == 2 { 32 } else { 24 };
    let count = get(bytes, at + 16).clamp(1, 20) as usize;
    let element = at + 32 + rng.below(count) * size;
    let data = at + 32 + count * size + rng.below(40);
    let field = match rng.below(8) {
        0 => return change_byte(rng, bytes, data),
        1 => at + rng.pick(&[0, 8]),
        2 | 3 => at + rng.pick(&[16, 24]),
        _ => element + rng.pick(&[0, 8, 16, 24]),
    };
    change_number(rng, bytes, field, n);
}

fn change_byte(rng: &mut Rng, bytes: &mut [u8], at: usize) {
    if let Some(byte) = bytes.get_mut(at) {
        *byte = rng.pick(&[0, 0xFF, byte.wrapping_add(1), byte.wrapping_sub(1)]);
    }
}

/// Puts a telling number there: near the one before, near a limit, or far off.
fn change_number(rng: &mut Rng, bytes: &mut [u8], at: usize, n: u64) {
    if at + 8 > bytes.len() {
        return;
    }
    let now = get(bytes, at);
    let near = [now.wrapping_add(1), now.wrapping_sub(1), now.wrapping_mul(2), 0, 1, 2, 3, n - 1, n, 16];
    let far = [u64::MAX, u64::MAX - now, 1 << 63, 1 << 59, 1 << 61, u64::MAX - 31, 1 << 20, 1 << 16];
    let number = if rng.one_in(4) { rng.pick(&far) } else { rng.pick(&near) };
    put(bytes, at, number);
}
