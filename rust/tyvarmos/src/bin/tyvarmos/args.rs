//! The words of a command line.

use std::ffi::OsString;
use std::os::unix::ffi::{OsStrExt, OsStringExt};
use std::path::PathBuf;

use crate::hex;
use crate::keys;

/// What is to be done.
#[derive(Clone, Copy, Debug, PartialEq, Eq)]
pub enum Action {
    Judge,
    Get,
    Stat,
}

/// A command line that asks for work.
#[derive(Debug)]
pub struct Options {
    pub action: Action,
    /// One file, or more where they are to be judged.
    pub files: Vec<PathBuf>,
    pub key: Vec<u8>,
    pub buckets: Vec<Vec<u8>>,
    pub numbers: Numbers,
    /// The meta page asked for.
    pub meta: Option<u64>,
    pub json: bool,
    pub quiet: bool,
    pub jobs: usize,
}

/// The numbers that stand in for a meta page's.
#[derive(Clone, Copy, Debug, Default, PartialEq, Eq)]
pub struct Numbers {
    pub page_size: Option<u64>,
    pub page_count: Option<u64>,
    pub root: Option<u64>,
    pub freelist: Option<u64>,
}

/// What a command line asks for.
pub enum Wanted {
    Work(Options),
    Help,
    Version,
}

/// The words, sorted into options and others.
#[derive(Default)]
struct Words {
    others: Vec<OsString>,
    buckets: Vec<Vec<u8>>,
    numbers: Numbers,
    meta: Option<u64>,
    jobs: Option<u64>,
    json: bool,
    quiet: bool,
    hex: bool,
    help: bool,
    version: bool,
}

/// What these words ask for, or what is wrong with them.
pub fn parse(words: impl Iterator<Item = OsString>) -> Result<Wanted, String> {
    let mut sorted = Words::default();
    let mut rest = words;
    while let Some(word) = rest.next() {
        if word == "--" {
            sorted.others.extend(rest);
            break;
        }
        if !word.as_bytes().starts_with(b"-") || word == "-" {
            sorted.others.push(word);
            continue;
        }
        let (name, value) = parts(word.as_bytes());
        let known = match value {
            None => flag(&mut sorted, name) || valued(&mut sorted, name, || rest.next().map(OsString::into_vec))?,
            Some(value) => valued(&mut sorted, name, || Some(value.to_vec()))?,
        };
        if !known {
            return Err(unknown(name, value.is_some()));
        }
    }
    match (sorted.help, sorted.version) {
        (true, _) => Ok(Wanted::Help),
        (_, true) => Ok(Wanted::Version),
        _ => options(sorted).map(Wanted::Work),
    }
}

/// The name of an option, and what stands after its = sign.
fn parts(word: &[u8]) -> (&[u8], Option<&[u8]>) {
    match word.iter().position(|byte| *byte == b'=') {
        Some(at) if word.starts_with(b"--") => (&word[..at], Some(&word[at + 1..])),
        _ => (word, None),
    }
}

/// Sets an option that takes no word; whether there is one of this name.
fn flag(sorted: &mut Words, name: &[u8]) -> bool {
    let flag = match name {
        b"--json" => &mut sorted.json,
        b"--quiet" | b"-q" => &mut sorted.quiet,
        b"--hex" => &mut sorted.hex,
        b"--help" | b"-h" => &mut sorted.help,
        b"--version" | b"-V" => &mut sorted.version,
        _ => return false,
    };
    *flag = true;
    true
}

/// Sets an option that takes a word; whether there is one of this name.
fn valued(sorted: &mut Words, name: &[u8], word: impl FnOnce() -> Option<Vec<u8>>) -> Result<bool, String> {
    let text = String::from_utf8_lossy(name);
    let next = || word().ok_or(format!("{text} wants a word after it"));
    let numbers = &mut sorted.numbers;
    let place = match name {
        b"--bucket" => {
            sorted.buckets.push(next()?);
            return Ok(true);
        }
        b"--bucket-hex" => {
            sorted.buckets.push(digits(&next()?)?);
            return Ok(true);
        }
        b"--page-size" => &mut numbers.page_size,
        b"--page-count" => &mut numbers.page_count,
        b"--root" => &mut numbers.root,
        b"--freelist" => &mut numbers.freelist,
        b"--meta" => &mut sorted.meta,
        b"--jobs" | b"-j" => &mut sorted.jobs,
        _ => return Ok(false),
    };
    once(place, &text, &next()?).map(|()| true)
}

/// What is wrong with an option that none takes.
fn unknown(name: &[u8], has_value: bool) -> String {
    if has_value && flag(&mut Words::default(), name) {
        return format!("{} takes no word", String::from_utf8_lossy(name));
    }
    format!("there is no option {}", keys::shown(name))
}

/// Sets a number that may be given once.
fn once(place: &mut Option<u64>, name: &str, word: &[u8]) -> Result<(), String> {
    let number = std::str::from_utf8(word).ok().and_then(|word| word.parse().ok());
    let number = number.ok_or(format!("{name} wants a number, not {}", keys::shown(word)))?;
    match place.replace(number) {
        None => Ok(()),
        Some(_) => Err(format!("{name} is given twice")),
    }
}

/// The bytes that hex digits stand for.
fn digits(word: &[u8]) -> Result<Vec<u8>, String> {
    hex::parse(word).ok_or(format!("{} is not an even count of hex digits", keys::shown(word)))
}

/// The work that sorted words ask for.
fn options(words: Words) -> Result<Options, String> {
    let mut others = words.others.iter();
    let action = match others.next() {
        None => return Err("judge, get or stat is wanted".to_string()),
        Some(word) if word == "judge" => Action::Judge,
        Some(word) if word == "get" => Action::Get,
        Some(word) if word == "stat" => Action::Stat,
        Some(word) => return Err(format!("{} is none of judge, get, stat", keys::shown(word.as_bytes()))),
    };
    let mut files = vec![others.next().map(PathBuf::from).ok_or("a FILE is wanted")?];
    let key = match (action, words.hex) {
        (Action::Get, false) => others.next().ok_or("a KEY is wanted")?.as_bytes().to_vec(),
        (Action::Get, true) => digits(others.next().ok_or("a KEY is wanted")?.as_bytes())?,
        _ => Vec::new(),
    };
    if action == Action::Judge {
        files.extend(others.by_ref().map(PathBuf::from));
    }
    if let Some(word) = others.next() {
        return Err(format!("{} is one word too many", keys::shown(word.as_bytes())));
    }
    check(&words, action)?;
    let jobs = words.jobs.unwrap_or(1) as usize;
    let Words { buckets, numbers, meta, json, quiet, .. } = words;
    Ok(Options { action, files, key, buckets, numbers, meta, json, quiet, jobs })
}

/// Refuses an option that says nothing about the action, or a number that it cannot have.
fn check(words: &Words, action: Action) -> Result<(), String> {
    let judging = action == Action::Judge;
    match words {
        Words { hex: true, .. } if action != Action::Get => Err("--hex is about the KEY of get".to_string()),
        Words { quiet: true, .. } if !judging => Err("--quiet is about judge".to_string()),
        Words { jobs: Some(_), .. } if !judging => Err("--jobs is about judge".to_string()),
        Words { jobs: Some(0), .. } => Err("--jobs wants 1 or more, not 0".to_string()),
        Words { meta: Some(page @ 2..), .. } => Err(format!("--meta wants 0 or 1, not {page}")),
        _ => Ok(()),
    }
}
