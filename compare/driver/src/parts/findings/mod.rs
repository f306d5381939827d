//! Every difference of docs/DIFFERENCES.md with its smallest input: what the crate does, and what 01 says. The lost
//! shard of 02's order 3, on which they agree.

mod blocks;
mod files;
mod lists;

use super::Run;

pub fn run(run: &mut Run) {
    blocks::run(run);
    lists::run(run);
    files::run(run);
}
