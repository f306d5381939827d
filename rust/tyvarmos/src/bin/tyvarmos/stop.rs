//! What ends the command before its work is done, its exit statuses, and standard output and error.

use std::io::{self, Write};
use std::path::Path;

use crate::help;
use crate::text;

pub const ABSENT: u8 = 1;
pub const REFUSED: u8 = 2;
pub const BEYOND: u8 = 3;
pub const USAGE: u8 = 64;
pub const UNREADABLE: u8 = 66;
pub const OUTPUT: u8 = 74;

/// Why the command ends early.
#[derive(Debug)]
pub enum Stop {
    /// The words cannot be understood.
    Usage(String),
    /// The file cannot be opened or read.
    Unreadable { file: String, why: String },
    /// Standard output cannot be written.
    Output(io::Error),
}

impl Stop {
    /// The stop for a file with this error.
    pub fn unreadable(path: &Path, error: &dyn std::fmt::Display) -> Stop {
        Stop::Unreadable { file: text::path(path), why: error.to_string() }
    }

    /// Says why on standard error, and answers the exit status.
    pub fn tell(&self) -> u8 {
        match self {
            Stop::Usage(why) => {
                tell(&format!("{why}\n{}", help::usage()));
                USAGE
            }
            Stop::Unreadable { file, why } => {
                tell(&format!("{file}: {why}"));
                UNREADABLE
            }
            Stop::Output(error) => {
                tell(&format!("standard output: {error}"));
                OUTPUT
            }
        }
    }
}

/// The worse of two exit statuses: a file that cannot be read before one that is refused, then one beyond the limits.
pub fn worse(one: u8, other: u8) -> u8 {
    let rank = |status| [0, ABSENT, BEYOND, REFUSED, UNREADABLE].iter().position(|known| *known == status);
    if rank(one) < rank(other) {
        other
    } else {
        one
    }
}

/// Writes a line to standard error; where that is closed, nobody is left to tell.
pub fn tell(line: &str) {
    let _ = writeln!(io::stderr(), "tyvarmos: {line}");
}

/// Writes to standard output.
pub fn put(bytes: &[u8]) -> Result<(), Stop> {
    let mut out = io::stdout().lock();
    out.write_all(bytes).and_then(|()| out.flush()).map_err(Stop::Output)
}

#[cfg(test)]
mod tests {
    use super::*;

    #[test]
    fn the_worst_status_stays() {
        let order = [0, ABSENT, BEYOND, REFUSED, UNREADABLE];
        for (i, one) in order.iter().enumerate() {
            for (k, other) in order.iter().enumerate() {
                assert_eq!(worse(*one, *other), order[i.max(k)]);
            }
        }
    }
}
