//! Tests of the wrapper and of the command, beside the plain reading of the rules in compare/reading.

#[cfg(all(target_os = "linux", target_arch = "x86_64"))]
mod bad_media;
mod boundary;
mod breaches;
mod command;
mod context;
mod context_fuzz;
mod damage;
mod declarations;
mod files;
mod fuzz;
mod json;
mod listing;
mod many;
mod meta;
mod meta_pages;
mod names;
mod overlap;
mod papers;
mod parting;
mod probe;
mod rng;
mod scope;
mod small;
mod usage;
mod wrapper;

/// The example's bytes.
fn example() -> Vec<u8> {
    std::fs::read(EXAMPLE).unwrap()
}

const EXAMPLE: &str = concat!(env!("CARGO_MANIFEST_DIR"), "/../../examples/shard.db");
