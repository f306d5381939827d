//! Rounds of two calls in turn, in one run or several, and the table of them.

use std::hint::black_box;
use std::time::{Duration, Instant};

/// A race goes on for this long, and for so many rounds at the least.
const LENGTH: Duration = Duration::from_secs(1);
const LEAST_ROUNDS: usize = 21;

/// What is timed against what: a round of a side makes `times` calls. `goal` is the ratio that is wanted, if one is.
pub struct Race {
    pub call: String,
    pub peer: &'static str,
    pub goal: Option<f64>,
    pub times: usize,
}

/// Medians over the rounds of a run: of our nanoseconds for a call, of theirs, and of the ratio of the two.
#[derive(Clone, Copy)]
struct Run {
    ours: f64,
    theirs: f64,
    ratio: f64,
}

impl Run {
    /// What these rounds gave, each of them our time and theirs.
    fn of(rounds: &[(f64, f64)]) -> Run {
        let median = |number: fn(&(f64, f64)) -> f64| median(rounds.iter().map(number).collect());
        Run { ours: median(|round| round.0), theirs: median(|round| round.1), ratio: median(|round| round.0 / round.1) }
    }
}

/// One line of the table: a race and its runs.
struct Line {
    race: Race,
    runs: Vec<Run>,
}

impl Line {
    /// The run with the median ratio.
    fn middle(&self) -> Run {
        let mut runs = self.runs.clone();
        runs.sort_by(|a, b| a.ratio.total_cmp(&b.ratio));
        runs[runs.len() / 2]
    }

    /// The ratios in the order of the runs, the middle run, and whether that meets the goal.
    fn row(&self) -> String {
        let Race { call, peer, goal, .. } = &self.race;
        let Run { ours, theirs, ratio } = self.middle();
        let (ours, theirs) = (grouped(ours.round() as usize), grouped(theirs.round() as usize));
        let ratios: Vec<String> = self.runs.iter().map(|run| format!("{:.3}", run.ratio)).collect();
        let ratios = ratios.join(", ");
        let outcome = goal.map_or("", |goal| if ratio <= goal { "met" } else { "missed" });
        let goal = goal.map_or(String::new(), |goal| format!("{goal:?}"));
        format!("| {call} | {peer} | {ratios} | {ratio:.3} | {ours} | {theirs} | {goal} | {outcome} |")
    }
}

#[derive(Default)]
pub struct Table {
    lines: Vec<Line>,
}

impl Table {
    /// Times both in turn, round after round. Each closure makes `times` calls.
    pub fn race(&mut self, race: Race, mut ours: impl FnMut(), mut theirs: impl FnMut()) {
        self.race_with(race, || (), |_| ours(), || (), |_| theirs());
    }

    /// The same, where each round of a side works on what its `make` gives; to make and to drop it is not timed.
    pub fn race_with<A, B>(
        &mut self,
        race: Race,
        mut make_ours: impl FnMut() -> A,
        mut ours: impl FnMut(&mut A),
        mut make_theirs: impl FnMut() -> B,
        mut theirs: impl FnMut(&mut B),
    ) {
        let (start, calls) = (Instant::now(), race.times as f64);
        let mut rounds = Vec::new();
        while rounds.len() < LEAST_ROUNDS || start.elapsed() < LENGTH {
            let ours = timed(make_ours(), &mut ours) / calls;
            let theirs = timed(make_theirs(), &mut theirs) / calls;
            rounds.push((ours, theirs));
        }
        let run = Run::of(&rounds);
        println!("{}, beside {}: {:.3}", race.call, race.peer, run.ratio);
        self.add(race, run);
    }

    /// Adds a run to the line of its race.
    fn add(&mut self, race: Race, run: Run) {
        match self.lines.iter_mut().find(|line| line.race.call == race.call && line.race.peer == race.peer) {
            Some(line) => line.runs.push(run),
            None => self.lines.push(Line { race, runs: vec![run] }),
        }
    }

    /// Prints the table that docs/SPEED.md is made from.
    pub fn print(&self) {
        println!("| call | beside | ratios | median | ours, ns | theirs, ns | goal | outcome |");
        println!("|---|---|---:|---:|---:|---:|---:|---|");
        self.lines.iter().for_each(|line| println!("{}", line.row()));
    }
}

/// A number with a comma before every three digits.
pub fn grouped(number: usize) -> String {
    let digits = number.to_string();
    let groups: Vec<_> = digits.as_bytes().rchunks(3).rev().map(String::from_utf8_lossy).collect();
    groups.join(",")
}

/// Takes a value as one that is needed, so that the work for it is done.
pub fn keep<T>(value: T) {
    drop(black_box(value));
}

fn timed<A>(mut made: A, call: &mut impl FnMut(&mut A)) -> f64 {
    let start = Instant::now();
    call(&mut made);
    start.elapsed().as_nanos() as f64
}

fn median(mut numbers: Vec<f64>) -> f64 {
    numbers.sort_by(f64::total_cmp);
    numbers[numbers.len() / 2]
}
