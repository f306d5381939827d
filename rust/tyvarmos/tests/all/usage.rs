//! Bad arguments, help, files that cannot be read, and outputs that cannot be written.

use std::fs::{self, File, Permissions};
use std::os::unix::fs::PermissionsExt;
use std::os::unix::process::CommandExt;
use std::process::{Command, Output, Stdio};

use crate::files::{command, run, run_on, Done, Temporary};
use crate::{small, EXAMPLE};

const NOBODY: u32 = 65_534;
const TEXT_FILE_BUSY: i32 = 26;

#[test]
fn bad_arguments_are_64() {
    let lines: [(&[&str], &str); 17] = [
        (&[], "judge, get or stat is wanted"),
        (&["juge", EXAMPLE], "\"juge\" is none of judge, get, stat"),
        (&["judge"], "a FILE is wanted"),
        (&["get", EXAMPLE], "a KEY is wanted"),
        (&["stat", EXAMPLE, "more"], "\"more\" is one word too many"),
        (&["get", EXAMPLE, "key", "more"], "\"more\" is one word too many"),
        (&["judge", EXAMPLE, "--deep"], "there is no option \"--deep\""),
        (&["judge", EXAMPLE, "-x"], "there is no option \"-x\""),
        (&["judge", EXAMPLE, "--root"], "--root wants a word after it"),
        (&["judge", EXAMPLE, "--root", "three"], "--root wants a number, not \"three\""),
        (&["judge", EXAMPLE, "--root", "-3"], "--root wants a number, not \"-3\""),
        (&["judge", EXAMPLE, "--page-size", "18446744073709551616"], "--page-size wants a number"),
        (&["judge", EXAMPLE, "--root", "3", "--root", "3"], "--root is given twice"),
        (&["judge", EXAMPLE, "--hex"], "--hex is about the KEY of get"),
        (&["get", EXAMPLE, "--hex", "6g"], "\"6g\" is not an even count of hex digits"),
        (&["get", EXAMPLE, "--hex", "616"], "\"616\" is not an even count of hex digits"),
        (&["stat", EXAMPLE, "--bucket-hex", "word"], "\"word\" is not an even count of hex digits"),
    ];
    for (words, why) in lines {
        let done = run(words);
        assert_eq!((done.status, done.text()), (64, ""), "{words:?}");
        assert!(done.err.starts_with(&format!("tyvarmos: {why}")), "{words:?}: {}", done.err);
        assert!(done.err.contains("usage: tyvarmos judge FILE"));
    }
}

#[test]
fn help_and_version_are_0() {
    for words in [["--help"].as_slice(), &["-h"], &["judge", "--help"], &["get", "x", "--bucket", "y", "-h"]] {
        let done = run(words);
        assert_eq!((done.status, done.err.as_str()), (0, ""), "{words:?}");
        let options = ["--bucket", "--bucket-hex", "--hex", "--page-size", "--page-count", "--root", "--freelist"];
        let others =
            ["--meta", "--jobs", "--quiet", "--json", "--version", "--bucket=NAME", "judges each page on the way"];
        let statuses = ["3 beyond the limits of this version", "Of many files the worst", "Help is not"];
        for option in options.iter().chain(&others).chain(&statuses) {
            assert!(done.text().contains(option), "{option}");
        }
    }
    for word in ["--version", "-V"] {
        assert_eq!(run(&[word]).text(), concat!("tyvarmos ", env!("CARGO_PKG_VERSION"), "\n"));
    }
}

/// Every action on this file ends with 66 and one line that has these words.
fn check_unreadable(file: &Temporary, why: &str) {
    for words in [["judge"].as_slice(), &["stat"], &["get", "key"]] {
        let done = run_on(words[0], file, &words[1..]);
        assert_eq!((done.status, done.text()), (66, ""), "{words:?}");
        assert!(done.err.starts_with(&format!("tyvarmos: {}: {why}", file.path.display())), "{}", done.err);
        assert_eq!(done.err.lines().count(), 1);
    }
}

#[test]
fn what_cannot_be_opened_is_66() {
    check_unreadable(&Temporary::nothing("nothing"), "No such file or directory");
    let folder = Temporary::nothing("folder");
    fs::create_dir(&folder.path).unwrap();
    check_unreadable(&folder, "is a directory, not a file");
    let pipe = Temporary::nothing("pipe");
    assert!(Command::new("mkfifo").arg(&pipe.path).status().unwrap().success());
    check_unreadable(&pipe, "is neither a file nor a disk");
    assert_eq!(run(&["judge", "/dev/null"]).status, 66);
    assert_eq!(run(&["judge", ""]).status, 66);
}

#[test]
fn a_file_without_permission_is_66() {
    let file = Temporary::file("locked", &small::image());
    fs::set_permissions(&file.path, Permissions::from_mode(0o000)).unwrap();
    let copy = Temporary::nothing("command");
    fs::copy(env!("CARGO_BIN_EXE_tyvarmos"), &copy.path).unwrap();
    let mut command = Command::new(&copy.path);
    if File::open(&file.path).is_ok() {
        command.uid(NOBODY);
    }
    command.arg("judge").arg(&file.path);
    let done = Done::from(run_copied(&mut command));
    assert_eq!((done.status, done.text()), (66, ""));
    assert!(done.err.contains("Permission denied"), "{}", done.err);
}

/// Runs a command that was just copied; another test's new process may hold the copy open for a moment.
fn run_copied(command: &mut Command) -> Output {
    loop {
        match command.output() {
            Err(error) if error.raw_os_error() == Some(TEXT_FILE_BUSY) => {}
            done => return done.unwrap(),
        }
    }
}

#[test]
fn an_output_that_cannot_be_written_is_74() {
    let lines =
        [["get", EXAMPLE, "--bucket", "world", "map"].as_slice(), &["judge", EXAMPLE], &["stat", EXAMPLE], &["-h"]];
    for words in lines {
        let (reader, writer) = std::io::pipe().unwrap();
        drop(reader);
        let closed = Done::from(command(words).stdout(writer).stderr(Stdio::piped()).output().unwrap());
        assert_eq!(
            (closed.status, closed.err.as_str()),
            (74, "tyvarmos: standard output: Broken pipe (os error 32)\n")
        );
        let full = File::options().write(true).open("/dev/full").unwrap();
        let full = Done::from(command(words).stdout(full).stderr(Stdio::piped()).output().unwrap());
        assert_eq!(full.status, 74);
        assert!(full.err.contains("No space left on device"));
    }
}
