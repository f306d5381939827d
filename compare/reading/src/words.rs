//! The lent form of the table (docs/PROBE.md): free bits, pending bits, then a transaction number for each page.

use crate::freelist::{State, Table};
use crate::layout::MAX_PAGES;
use crate::{refusal, Fault};

const PENDING_BITS: usize = 512;
const TRANSACTIONS: usize = 1_024;
pub const TABLE_WORDS: usize = TRANSACTIONS + MAX_PAGES as usize;

/// The table these words hold.
pub fn load(words: &[u64]) -> Result<Table, Fault> {
    if words.len() < TABLE_WORDS {
        return Err(refusal(1));
    }
    let states = (0..MAX_PAGES as usize).map(|page| state(words, page)).collect();
    Ok(Table { states })
}

/// Writes the table over its words; the transaction number of a page that isn't pending stays.
pub fn store(table: &Table, words: &mut [u64]) {
    for (page, state) in table.states.iter().enumerate() {
        set_bit(words, page, matches!(state, State::Free | State::Neither));
        set_bit(&mut words[PENDING_BITS..], page, matches!(state, State::Pending(_) | State::Neither));
        if let State::Pending(t) = state {
            words[TRANSACTIONS + page] = *t;
        }
    }
}

fn state(words: &[u64], page: usize) -> State {
    match (bit(words, page), bit(&words[PENDING_BITS..], page)) {
        (false, false) => State::InUse,
        (true, false) => State::Free,
        (false, true) => State::Pending(words[TRANSACTIONS + page]),
        (true, true) => State::Neither,
    }
}

fn bit(words: &[u64], page: usize) -> bool {
    words[page / 64] >> (page % 64) & 1 == 1
}

fn set_bit(words: &mut [u64], page: usize, on: bool) {
    let mask = 1 << (page % 64);
    if on {
        words[page / 64] |= mask;
    } else {
        words[page / 64] &= !mask;
    }
}
