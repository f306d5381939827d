//! The README's program, run as it stands from the repository's top.

use std::fs;

include!("../examples/readme.rs");

const TOP: &str = concat!(env!("CARGO_MANIFEST_DIR"), "/../..");

#[test]
fn the_readme_has_this_program() {
    let readme = fs::read_to_string(format!("{TOP}/README.md")).unwrap();
    let blocks: Vec<&str> = readme.split("```rust\n").skip(1).map(|rest| rest.split("```").next().unwrap()).collect();
    assert_eq!(blocks, [include_str!("../examples/readme.rs")]);
}

#[test]
fn the_program_runs() {
    std::env::set_current_dir(TOP).unwrap();
    main().unwrap();
}
