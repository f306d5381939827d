//! Breaches put down by hand, each with the number, page, element and common beginning that 01 and 02 give it.

mod block;
mod edit;
mod image;
mod overlap;
mod parting;
mod quick;
mod table;

use super::Run;

pub fn run(run: &mut Run) {
    image::run(run);
    overlap::run(run);
    parting::run(run);
    quick::run(run);
    block::run(run);
    edit::run(run);
    table::run(run);
}
