//! Runs the comparison, `compare [--rounds K] [--seed S] [PART ..]`, or the benchmark, `compare --bench [RUNS]`.

#[cfg(feature = "proved")]
mod bench;
mod by_reading;
mod make;
mod panics;
mod parts;
mod record;
mod rng;
mod tally;

use std::process::ExitCode;
use std::time::Instant;

use subject::Subject;

use parts::Run;
use rng::Rng;
use tally::Tally;

/// A part, what it is held against, and its rounds where `--rounds` is 1.
struct Part {
    name: &'static str,
    against: &'static str,
    run: fn(&mut Run),
    rounds: usize,
}

const PARTS: [Part; 15] = [
    Part { name: "examples", against: "01's examples", run: parts::examples::run, rounds: 1 },
    Part { name: "refusals", against: "01's rules", run: parts::refusals::run, rounds: 1 },
    Part { name: "answers", against: "01's rules", run: parts::answers::run, rounds: 1 },
    Part { name: "page", against: "the crate", run: parts::page::run, rounds: 1_500 },
    Part { name: "node", against: "the crate", run: parts::node::run, rounds: 1_500 },
    Part { name: "runs", against: "the crate", run: parts::runs::run, rounds: 400 },
    Part { name: "split", against: "the crate", run: parts::split::run, rounds: 3_000 },
    Part { name: "freelist", against: "the crate", run: parts::freelist::run, rounds: 100 },
    Part { name: "meta", against: "the crate", run: parts::meta::run, rounds: 3_000 },
    Part { name: "tree", against: "the crate", run: parts::tree::run, rounds: 300 },
    Part { name: "hostile", against: "the reading", run: parts::hostile::run, rounds: 300 },
    Part { name: "findings", against: "docs/DIFFERENCES.md", run: parts::findings::run, rounds: 1 },
    Part { name: "files", against: "the crate", run: parts::files::run, rounds: 1 },
    Part { name: "damaged", against: "the reading", run: parts::damaged::run, rounds: 400 },
    Part { name: "short", against: "the crate", run: parts::short::run, rounds: 1 },
];

struct Options {
    rounds: usize,
    seed: u64,
    record: bool,
    parts: Vec<String>,
}

impl Options {
    fn wants(&self, part: &str) -> bool {
        self.parts.is_empty() || self.parts.iter().any(|name| name == part)
    }
}

fn main() -> ExitCode {
    #[cfg(feature = "proved")]
    if std::env::args().nth(1).as_deref() == Some("--bench") {
        bench::run(std::env::args().nth(2).map_or(3, |runs| runs.parse().expect("a number of runs")));
        return ExitCode::SUCCESS;
    }
    let options = options();
    panics::keep();
    match std::panic::catch_unwind(|| if options.record { record::run() } else { compare_all(&options) }) {
        Ok(0) => ExitCode::SUCCESS,
        Ok(_) => ExitCode::FAILURE,
        Err(_) => {
            println!("the comparison stopped: {}", panics::last());
            ExitCode::FAILURE
        }
    }
}

/// Compares every subject and answers how much failed.
fn compare_all(options: &Options) -> u64 {
    let start = Instant::now();
    let mut total = Tally::default();
    compare(&by_reading::Reading, &PARTS, options, &mut total);
    #[cfg(feature = "proved")]
    compare(&proved::Proved, &PARTS, options, &mut total);
    println!("{:.1} s in all, seed {}", start.elapsed().as_secs_f64(), options.seed);
    println!("{} passed, {} failed", total.passed, total.failed);
    total.failed
}

fn compare(subject: &dyn Subject, parts: &[Part], options: &Options, total: &mut Tally) {
    for part in parts.iter().filter(|part| options.wants(part.name)) {
        println!("{}, {} against {}:", subject.name(), part.name, part.against);
        let start = Instant::now();
        let rounds = part.rounds * options.rounds;
        let mut run = Run { subject, rng: Rng::new(options.seed), rounds, tally: Tally::default() };
        (part.run)(&mut run);
        let seconds = start.elapsed().as_secs_f64();
        let Tally { passed, failed } = run.tally;
        let seed = options.seed;
        println!("  {passed} passed, {failed} failed (seed {seed}, rounds {rounds}, {seconds:.1} s)");
        total.add(&run.tally);
    }
}

fn options() -> Options {
    let mut options = Options { rounds: 1, seed: 1, record: false, parts: Vec::new() };
    let mut words = std::env::args().skip(1);
    while let Some(word) = words.next() {
        let mut number = || words.next().and_then(|word| word.parse().ok()).expect("a number");
        match word.as_str() {
            "--rounds" => options.rounds = number() as usize,
            "--seed" => options.seed = number(),
            "--record" => options.record = true,
            name => {
                let known = PARTS.iter().any(|part| part.name == name);
                assert!(known, "no part {name}");
                options.parts.push(word);
            }
        }
    }
    options
}
