//! The command on a disk that fails: reads that touch some bytes are refused by a filter of system calls.

use std::ffi::{c_int, c_ulong};
use std::io;
use std::os::unix::process::CommandExt;

use crate::files::{command, Done};
use crate::json;
use crate::EXAMPLE;

const SET_NO_NEW_PRIVILEGES: c_int = 38;
const SET_SECCOMP: c_int = 22;
const FILTER: c_ulong = 2;

extern "C" {
    fn prctl(option: c_int, ...) -> c_int;
}

/// An instruction of a filter: its code, where it jumps if true and if false, and its number.
#[repr(C)]
#[derive(Clone, Copy)]
struct Step(u16, u8, u8, u32);

#[repr(C)]
struct Program {
    length: u16,
    steps: *const Step,
}

/// Lets every call pass but a `pread64` of bytes from `start` up to `end`, which fails with an input or output error.
fn failing(start: u32, end: u32) -> [Step; 10] {
    const PREAD64: u32 = 17;
    const COUNT_AT: u32 = 32;
    const OFFSET_AT: u32 = 40;
    [
        Step(0x20, 0, 0, 0),           // the call's number
        Step(0x15, 0, 7, PREAD64),     // another: pass
        Step(0x20, 0, 0, OFFSET_AT),   // where it reads
        Step(0x35, 5, 0, end),         // at the end or after it: pass
        Step(0x07, 0, 0, 0),           // kept, and added to
        Step(0x20, 0, 0, COUNT_AT),    // how much it reads
        Step(0x0C, 0, 0, 0),           // where it ends
        Step(0x25, 0, 1, start),       // not after the start: pass
        Step(0x06, 0, 0, 0x0005_0005), // fail with 5
        Step(0x06, 0, 0, 0x7FFF_0000), // pass
    ]
}

/// Sets the filter for this process and those that it becomes.
fn set(steps: &[Step]) -> io::Result<()> {
    let program = Program { length: steps.len() as u16, steps: steps.as_ptr() };
    // SAFETY: both calls take numbers and the address of a program that lives until they return.
    let done = unsafe {
        prctl(SET_NO_NEW_PRIVILEGES, 1 as c_ulong, 0 as c_ulong, 0 as c_ulong, 0 as c_ulong) == 0
            && prctl(SET_SECCOMP, FILTER, &program as *const Program) == 0
    };
    if done {
        Ok(())
    } else {
        Err(io::Error::last_os_error())
    }
}

/// Runs the command on the example, of which these bytes cannot be read.
fn run_failing(bad: (u32, u32), words: &[&str]) -> Done {
    let steps = failing(bad.0, bad.1);
    let mut command = command(words);
    // SAFETY: between fork and exec only prctl is called.
    unsafe { command.pre_exec(move || set(&steps)) };
    command.output().unwrap().into()
}

#[test]
fn a_bad_sector_beside_the_tree_costs_a_warning() {
    let judge = run_failing((140_000, 140_001), &["judge", EXAMPLE]);
    assert_eq!(judge.status, 0);
    assert!(judge.text().contains(": main tree sound, 4 buckets not judged\n"));
    assert!(judge.text().contains("  warning   1 page could not be read: 136; the tree does not need it\n"));
    let json = json::parse(run_failing((140_000, 142_000), &["stat", EXAMPLE, "--json"]).text());
    assert_eq!((json["verdict"].text(), json["unreadable_pages"].number()), ("sound", Some(3)));
    assert_eq!(json["unreadable"].list()[0].list()[1].number(), Some(138));
}

#[test]
fn a_bad_sector_in_the_tree_is_named() {
    let judge = run_failing((66_600, 66_601), &["judge", EXAMPLE]);
    assert_eq!(judge.status, 66);
    let why = "from byte 66560 on: Input/output error (os error 5)";
    assert!(judge
        .text()
        .contains(&format!(": main tree not judged\n  page 65 is needed and could not be read, {why}\n")));
    let json = run_failing((66_600, 66_601), &["judge", EXAMPLE, "--json"]);
    assert_eq!((json.status, json::parse(json.text())["verdict"].text()), (66, "unreadable"));
    let stat = run_failing((66_600, 66_601), &["stat", EXAMPLE]);
    assert!(stat.text().contains("  verdict   main tree not judged: page 65 is needed and could not be read"));
}

#[test]
fn a_lookup_needs_only_the_pages_on_its_way() {
    let words = ["get", EXAMPLE, "--bucket", "world", "motto"];
    assert_eq!(run_failing((110_000, 163_840), &words).text(), "Hold the wall.");
    let needed = run_failing((66_600, 66_601), &words);
    assert_eq!((needed.status, needed.text()), (66, ""));
    assert!(needed
        .err
        .contains(": main tree not judged on the way to bucket \"world\": page 65 is needed and could not"));
    let overflow = run_failing((100_400, 100_401), &words);
    assert_eq!((overflow.status, overflow.text()), (66, ""));
    assert!(overflow
        .err
        .contains(": bucket \"world\" not judged: page 98 is needed and could not be read, from byte 100352"));
}
