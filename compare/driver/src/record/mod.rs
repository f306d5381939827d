//! Records the crate's answers for the proved program `replay`: `compare --record`.

mod blocks;
mod images;
mod metas;
mod splits;
mod tables;
mod tape;

use std::fs;
use std::path::Path;

use crate::rng::Rng;
use tape::Tape;

/// The seed of every recording.
const SEED: u64 = 1;

/// Writes the program's input, and its output where no answer differs; nothing fails.
pub fn run() -> u64 {
    let tape = tape();
    let folder = Path::new(env!("CARGO_MANIFEST_DIR")).join("../../crates/replay");
    fs::write(folder.join("stdin"), &tape.bytes).expect("crates/replay can be written to");
    fs::write(folder.join("stdout"), tape.summary()).expect("crates/replay can be written to");
    print!("{}", tape.summary());
    println!("{} bytes in crates/replay/stdin, seed {SEED}", tape.bytes.len());
    0
}

/// All records.
fn tape() -> Tape {
    let mut tape = Tape::default();
    let mut rng = Rng::new(SEED);
    blocks::record(&mut rng, &mut tape);
    splits::record(&mut rng, &mut tape);
    tables::record(&mut rng, &mut tape);
    metas::record(&mut rng, &mut tape);
    images::record(&mut rng, &mut tape);
    tape
}
