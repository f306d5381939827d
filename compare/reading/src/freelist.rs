//! "Freelist and allocation": a table of page states (freelist.rs).

use crate::layout::{check_page_count, check_page_size, MAX_PAGES};
use crate::{refusal, Fault};

/// What a page is: the three states of 01, and an entry that is none of them.
#[derive(Clone, Copy, Debug, PartialEq, Eq)]
pub enum State {
    InUse,
    Free,
    Pending(u64),
    Neither,
}

/// The state of every page number below 32,768.
#[derive(Clone, Debug, PartialEq, Eq)]
pub struct Table {
    pub states: Vec<State>,
}

impl Table {
    /// All pages in use.
    pub fn new() -> Table {
        Table { states: vec![State::InUse; MAX_PAGES as usize] }
    }

    /// The pages that may be handed about.
    fn pages(&self, n: u64) -> &[State] {
        &self.states[2..n as usize]
    }

    /// Refuses a page count that isn't allowed, then an entry that is none of the three states.
    fn check(&self, n: u64) -> Result<(), Fault> {
        check_page_count(n)?;
        (!self.pages(n).contains(&State::Neither)).then_some(()).ok_or(refusal(11))
    }

    /// Whether every page of this range lies in 2 to N - 1 and has the state.
    fn all(&self, first: u64, count: u64, n: u64, state: State) -> bool {
        let end = u128::from(first) + u128::from(count);
        let inside = first >= 2 && end <= u128::from(n);
        inside && self.states[first as usize..end as usize].iter().all(|other| *other == state)
    }

    fn set(&mut self, first: u64, count: u64, state: State) {
        self.states[first as usize..(first + count) as usize].fill(state);
    }

    /// The initial list: strictly rising, each in use, becomes free.
    pub fn init(&mut self, n: u64, ids: &[u64]) -> Result<(), Fault> {
        self.check(n)?;
        let rising = ids.windows(2).all(|pair| pair[0] < pair[1]);
        if !rising || !ids.iter().all(|id| self.all(*id, 1, n, State::InUse)) {
            return Err(refusal(11));
        }
        ids.iter().for_each(|id| self.set(*id, 1, State::Free));
        Ok(())
    }

    /// Pages in use become pending under `t`.
    pub fn free(&mut self, n: u64, first: u64, count: u64, t: u64) -> Result<(), Fault> {
        self.check(n)?;
        if count == 0 || !self.all(first, count, n, State::InUse) {
            return Err(refusal(11));
        }
        self.set(first, count, State::Pending(t));
        Ok(())
    }

    /// Everything pending under a number below `t` becomes free.
    pub fn release(&mut self, n: u64, t: u64) -> Result<(), Fault> {
        self.check(n)?;
        for state in &mut self.states[2..n as usize] {
            if matches!(state, State::Pending(other) if *other < t) {
                *state = State::Free;
            }
        }
        Ok(())
    }

    /// The lowest free run that holds these bytes, or new pages at N; answers the start and N after.
    pub fn allocate(&mut self, n: u64, p: u64, bytes: u64) -> Result<(u64, u64), Fault> {
        check_page_size(p)?;
        self.check(n)?;
        if bytes < 40 {
            return Err(refusal(11));
        }
        let count = bytes.div_ceil(p);
        if let Some(start) = (2..n).find(|start| self.all(*start, count, n, State::Free)) {
            self.set(start, count, State::InUse);
            return Ok((start, n));
        }
        if u128::from(n) + u128::from(count) > u128::from(MAX_PAGES) {
            return Err(refusal(12));
        }
        self.set(n, count, State::InUse);
        Ok((n, n + count))
    }

    /// Free and pending ids, rising.
    pub fn list(&self, n: u64) -> Result<Vec<u64>, Fault> {
        self.check(n)?;
        let listed = |page: &u64| self.states[*page as usize] != State::InUse;
        Ok((2..n).filter(listed).collect())
    }

    /// 40 and 8 for each id listed.
    pub fn size(&self, n: u64) -> Result<u64, Fault> {
        Ok(40 + 8 * self.list(n)?.len() as u64)
    }
}

impl Default for Table {
    fn default() -> Table {
        Table::new()
    }
}
