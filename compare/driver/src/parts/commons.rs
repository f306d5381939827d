//! Which common beginnings the faults of a part had: many, or the part did not try what it should.

use std::collections::BTreeMap;

use super::Run;

/// Lengths that are to come, around those of the words that a comparison may go by.
const WANTED: [u64; 8] = [0, 1, 7, 8, 9, 11, 16, 23];

/// How often each common beginning came with 6 and with 7.
#[derive(Default)]
pub struct Commons {
    order: BTreeMap<u64, u64>,
    range: BTreeMap<u64, u64>,
}

impl Commons {
    /// Adds a fault's.
    pub fn add(&mut self, number: u64, common: u64) {
        match number {
            6 => *self.order.entry(common).or_default() += 1,
            7 => *self.range.entry(common).or_default() += 1,
            _ => {}
        }
    }

    /// Says how many there were, and holds them to those that are wanted.
    pub fn tell(&self, run: &mut Run) {
        for (number, seen) in [(6, &self.order), (7, &self.range)] {
            let (times, most) = (seen.values().sum::<u64>(), seen.keys().max().copied().unwrap_or(0));
            println!("  common beginnings of {number}: {} lengths of up to {most} in {times} faults", seen.len());
            let missing: Vec<u64> = WANTED.into_iter().filter(|length| !seen.contains_key(length)).collect();
            run.tally.check(missing.is_empty(), || format!("no {number} with a common beginning of {missing:?}"));
        }
    }
}
