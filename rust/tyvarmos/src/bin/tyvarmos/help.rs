//! What `--help` prints: help.txt, which ./tyvarmos prints too, and which the man page is held to.

pub const LONG: &str = include_str!("help.txt");

/// The lines on usage: those before the first empty one.
pub fn usage() -> &'static str {
    LONG.split_once("\n\n").map_or(LONG, |(usage, _)| usage)
}
