//! A line on a terminal that says what takes long and how far it is.

use std::cell::Cell;
use std::io::{self, IsTerminal, Write};
use std::path::{Path, PathBuf};
use std::sync::atomic::{AtomicU64, AtomicUsize, Ordering};
use std::sync::mpsc::{self, RecvTimeoutError, Sender};
use std::sync::{Arc, Mutex, PoisonError};
use std::thread::{self, JoinHandle};
use std::time::{Duration, Instant};

use crate::file;
use crate::text;

const BEAT: Duration = Duration::from_millis(500);
const LONGEST_NAME: usize = 48;

/// Shown on standard error from half a second on, until it is dropped.
pub struct Progress {
    board: Arc<Board>,
    ticker: Option<(Sender<()>, JoinHandle<()>)>,
}

/// How far the work is.
struct Board {
    name: String,
    files: usize,
    bytes: u64,
    files_done: AtomicUsize,
    bytes_done: AtomicU64,
    shown: Mutex<bool>,
}

impl Progress {
    /// A line about the work on these files, if standard error is a terminal.
    pub fn start(files: &[PathBuf]) -> Progress {
        let terminal = io::stderr().is_terminal();
        let bytes = if terminal { files.iter().map(|path| file::length(path)).sum() } else { 0 };
        let board = Arc::new(Board::new(files, bytes));
        let ticker = terminal.then(|| {
            let (end, ended) = mpsc::channel();
            let board = board.clone();
            (end, thread::spawn(move || board.tick(|| ended.recv_timeout(BEAT))))
        });
        Progress { board, ticker }
    }

    /// The share of one file, with so many bytes.
    pub fn share(&self, length: u64) -> Share<'_> {
        Share { board: &self.board, length, read: Cell::new(0) }
    }

    /// Counts a file as done.
    pub fn file_done(&self) {
        self.board.files_done.fetch_add(1, Ordering::Relaxed);
    }

    /// Takes the line away, so that another can be written.
    pub fn clear(&self) {
        self.board.clear();
    }
}

impl Drop for Progress {
    fn drop(&mut self) {
        if let Some((end, thread)) = self.ticker.take() {
            drop(end);
            let _ = thread.join();
        }
    }
}

/// The part that a file has in the bytes to be read.
pub struct Share<'a> {
    board: &'a Board,
    length: u64,
    read: Cell<u64>,
}

impl Share<'_> {
    /// Counts bytes that were read.
    pub fn read(&self, bytes: u64) {
        self.read.set(self.read.get() + bytes);
        self.board.bytes_done.fetch_add(bytes, Ordering::Relaxed);
    }

    /// Counts what is left of the file as read.
    pub fn read_all(&self) {
        self.read(self.length.saturating_sub(self.read.get()));
    }
}

impl Board {
    fn new(files: &[PathBuf], bytes: u64) -> Board {
        let name = files.first().map_or(String::new(), |path| short(path));
        let (files_done, bytes_done) = (AtomicUsize::new(0), AtomicU64::new(0));
        Board { name, files: files.len(), bytes, files_done, bytes_done, shown: Mutex::new(false) }
    }

    /// Writes the line at every beat until the sender is gone, then clears it.
    fn tick(&self, beat: impl Fn() -> Result<(), RecvTimeoutError>) {
        let start = Instant::now();
        while let Err(RecvTimeoutError::Timeout) = beat() {
            let mut shown = self.shown.lock().unwrap_or_else(PoisonError::into_inner);
            let _ = write!(io::stderr(), "\r\x1b[K{}", self.line(start.elapsed().as_secs()));
            *shown = true;
        }
        self.clear();
    }

    fn clear(&self) {
        let mut shown = self.shown.lock().unwrap_or_else(PoisonError::into_inner);
        if *shown {
            let _ = write!(io::stderr(), "\r\x1b[K");
        }
        *shown = false;
    }

    /// What is done after so many seconds.
    fn line(&self, seconds: u64) -> String {
        let (files, bytes) = (self.files_done.load(Ordering::Relaxed), self.bytes_done.load(Ordering::Relaxed));
        let percent = (100 * u128::from(bytes)).checked_div(self.bytes.into()).unwrap_or(0).min(100);
        if self.files > 1 {
            format!("judged {files} of {} files, {percent} % read, {seconds} s", self.files)
        } else if bytes < self.bytes {
            format!("reading {}: {percent} %, {seconds} s", self.name)
        } else {
            format!("judging {}: {seconds} s", self.name)
        }
    }
}

/// The end of a path, for a line.
fn short(path: &Path) -> String {
    let name = text::path(path);
    let cut = name.chars().count().saturating_sub(LONGEST_NAME);
    if cut == 0 {
        return name;
    }
    format!("..{}", name.chars().skip(cut).collect::<String>())
}

#[cfg(test)]
mod tests {
    use super::*;

    #[test]
    fn one_file_is_read_then_judged() {
        let board = Board::new(&["a\x1b.db".into()], 1_000);
        let share = Share { board: &board, length: 1_000, read: Cell::new(0) };
        share.read(370);
        assert_eq!(board.line(2), "reading a\\x1b.db: 37 %, 2 s");
        share.read_all();
        assert_eq!(board.line(3), "judging a\\x1b.db: 3 s");
    }

    #[test]
    fn many_files_have_one_line() {
        let board = Board::new(&["a".into(), "b".into(), "c".into()], 4_000);
        Share { board: &board, length: 1_000, read: Cell::new(0) }.read_all();
        board.files_done.fetch_add(1, Ordering::Relaxed);
        assert_eq!(board.line(9), "judged 1 of 3 files, 25 % read, 9 s");
    }

    #[test]
    fn a_long_name_is_cut_to_its_end() {
        let name = short(Path::new(&"x".repeat(100)));
        assert_eq!((name.len(), &name[..3]), (LONGEST_NAME + 2, "..x"));
    }
}
