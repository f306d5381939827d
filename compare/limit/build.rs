//! Compiles limit.c by the system's C compiler, for a plain machine of its kind.

use std::path::Path;
use std::process::Command;

fn main() {
    println!("cargo:rerun-if-changed=limit.c");
    let folder = std::env::var("OUT_DIR").unwrap();
    let path = |name: &str| Path::new(&folder).join(name).display().to_string();
    let (object, library) = (path("limit.o"), path("liblimit.a"));
    run("cc", &["-O3", "-fPIC", "-c", "limit.c", "-o", &object]);
    run("ar", &["rcs", &library, &object]);
    println!("cargo:rustc-link-search=native={folder}");
    println!("cargo:rustc-link-lib=static=limit");
}

/// Runs a command that must succeed.
fn run(command: &str, words: &[&str]) {
    let status = Command::new(command).args(words).status();
    assert!(status.is_ok_and(|status| status.success()), "{command} {}", words.join(" "));
}
