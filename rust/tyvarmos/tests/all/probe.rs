//! docs/PROBE.md, held against the functions that it lists.

use crate::declarations::{body, field_counts};

const PAPER: &str = include_str!("../../../../docs/PROBE.md");

/// A file of exports, and the file of the functions that they call.
macro_rules! sources {
    ($name:literal) => {
        (
            include_str!(concat!("../../../../crates/probe_c/src/", $name)),
            include_str!(concat!("../../../../crates/probe/src/", $name)),
        )
    };
}

const SOURCES: [(&str, &str); 5] =
    [sources!("search.rt"), sources!("edits.rt"), sources!("splits.rt"), sources!("free.rt"), sources!("metas.rt")];

/// A function's name, its parameters as one line, and how many fields its answer has.
type Row = (String, String, usize);

/// The exported functions of a Rattle file, with the fields that the functions called write.
fn rows((exports, called): (&str, &str)) -> Vec<Row> {
    let declared = exports.split("#[unsafe(no_mangle)]\npub extern \"C\" fn ").skip(1);
    let row = |rest: &str| {
        let (name, rest) = rest.split_once('(').unwrap();
        let parameters: Vec<&str> = rest.split(')').next().unwrap().split_whitespace().collect();
        (name.to_string(), parameters.join(" ").trim_end_matches(',').to_string(), fields(called, name))
    };
    declared.map(row).collect()
}

/// How many fields a function's answer has: those that it writes, or the `tell_` that it ends with.
fn fields(text: &str, name: &str) -> usize {
    let own = body(text, name);
    let teller = own.split("tell_").nth(1).map(|rest| format!("tell_{}", rest.split('(').next().unwrap()));
    let writer = teller.map_or(own, |teller| body(text, &teller));
    field_counts(writer).first().copied().unwrap_or(0)
}

/// The rows of the paper's table.
fn listed() -> Vec<Row> {
    let lines = PAPER.lines().filter(|line| line.starts_with("| `tyvarmos_"));
    let row = |line: &str| {
        let cells: Vec<&str> = line.split('|').map(str::trim).collect();
        let fields = cells[3].split(", ").filter(|field| !field.is_empty()).count();
        (cells[1].replace('`', ""), cells[2].replace('`', ""), fields)
    };
    lines.map(row).collect()
}

#[test]
fn the_paper_lists_every_function_with_its_parameters_and_fields() {
    let linked: Vec<Row> = SOURCES.into_iter().flat_map(rows).collect();
    assert_eq!(linked.len(), 21);
    assert_eq!(listed(), linked);
}
