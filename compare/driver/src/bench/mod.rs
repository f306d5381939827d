//! The benchmark: the proved calls and others, on the same input in one run, as ratios.

mod blocks;
mod machine;
mod reads;
mod shard;
mod tables;
mod timing;

use std::time::Instant;

use timing::Table;

/// The shards of characters: how many there are in each.
const SHARDS: [usize; 2] = [10_000, 100_000];

/// Times every call in so many whole runs, one after the other, and prints the machine, the table, and what lookups read.
pub fn run(runs: usize) {
    let start = Instant::now();
    let mut table = Table::default();
    for run in 1..=runs {
        println!("run {run} of {runs}");
        time(&mut table);
    }
    println!("\n{}, {:.0} s in all\n", machine::described(), start.elapsed().as_secs_f64());
    table.print();
    print_reads();
}

/// Prints how much of each shard a lookup reads.
fn print_reads() {
    println!("\nbytes and cache lines of the image that a lookup reads, counted, in the mean over the keys\n");
    println!("| keys | bytes, quick | lookup | Bucket::get | lines, quick | lookup | Bucket::get |");
    println!("|---|---:|---:|---:|---:|---:|---:|");
    SHARDS.into_iter().for_each(shard::print_reads);
}

/// Times every call once.
fn time(table: &mut Table) {
    for characters in SHARDS {
        shard::run(table, characters);
    }
    shard::run_long(table, 120);
    blocks::run(table);
    tables::run(table);
}
