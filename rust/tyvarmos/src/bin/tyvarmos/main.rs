//! The command `tyvarmos`: judges files, gets a value, tells what a file is.

mod args;
mod buckets;
mod cause;
mod context;
mod descent;
mod file;
mod get;
mod help;
mod hex;
mod json;
mod keys;
mod layout;
mod many;
mod meant;
mod media;
mod metas;
mod object;
mod parting;
mod progress;
mod range;
mod refusal;
mod stop;
mod text;
mod trace;
mod twice;
mod verdict;
mod walk;
mod words;

use std::process::ExitCode;

use args::{Action, Wanted};
use stop::{put, Stop};

fn main() -> ExitCode {
    ExitCode::from(run().unwrap_or_else(|stop| stop.tell()))
}

/// Does what the command line asks for, and answers the exit status.
fn run() -> Result<u8, Stop> {
    match args::parse(std::env::args_os().skip(1)).map_err(Stop::Usage)? {
        Wanted::Help => put(help::LONG.as_bytes()).map(|()| 0),
        Wanted::Version => put(concat!("tyvarmos ", env!("CARGO_PKG_VERSION"), "\n").as_bytes()).map(|()| 0),
        Wanted::Work(options) if options.action == Action::Get => get::run(&options),
        Wanted::Work(options) => many::run(&options),
    }
}
