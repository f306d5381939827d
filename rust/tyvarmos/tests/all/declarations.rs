//! Declarations of C functions as Rattle, C and Rust write them, read into one form.

/// A C function: its name, and each parameter with its type in words.
#[derive(Debug, PartialEq, Eq)]
pub struct Function {
    pub name: String,
    pub parameters: Vec<(String, &'static str)>,
}

/// What Rattle's short names are called elsewhere.
const NAMES: [(&str, &str); 4] =
    [("p", "page_size"), ("n", "page_count"), ("root", "root_page"), ("freelist", "freelist_page")];

/// The exported functions of a Rattle file. A slice is a start and a length.
pub fn in_rattle(text: &str) -> Vec<Function> {
    let declared = text.split("#[unsafe(no_mangle)]\npub extern \"C\" fn ").skip(1);
    declared.map(|rest| function(rest, rattle_parameter)).collect()
}

/// The functions that a C header declares.
pub fn in_c(text: &str) -> Vec<Function> {
    let code: String = text.split("/*").map(|part| part.rsplit("*/").next().unwrap()).collect();
    code.split("uint64_t tyvarmos_").skip(1).map(|rest| function(&format!("tyvarmos_{rest}"), c_parameter)).collect()
}

/// The functions that a Rust `extern` block declares.
pub fn in_rust(text: &str) -> Vec<Function> {
    let block = text.split("extern \"C\" {").nth(1).unwrap().split("\n}").next().unwrap();
    block.split("fn ").skip(1).map(|rest| function(rest, rust_parameter)).collect()
}

/// The function whose name and parameters a text starts with.
fn function(text: &str, parameter: fn(&str) -> Vec<(String, &'static str)>) -> Function {
    let (name, rest) = text.split_once('(').unwrap();
    let list = rest.split(')').next().unwrap();
    let words = list.split(',').map(str::trim).filter(|word| !word.is_empty());
    Function { name: name.to_string(), parameters: words.flat_map(parameter).collect() }
}

fn rattle_parameter(word: &str) -> Vec<(String, &'static str)> {
    let (name, kind) = word.split_once(": ").unwrap();
    let name = NAMES.iter().find(|(short, _)| *short == name).map_or(name, |(_, long)| long).to_string();
    let length = (format!("{name}_len"), "length");
    match kind {
        "&[u8]" => vec![(name, "bytes read"), length],
        "&mut [u8]" => vec![(name, "bytes written"), length],
        "usize" | "u64" => vec![(name, "number")],
        _ => panic!("a type without a C form: {kind}"),
    }
}

fn c_parameter(word: &str) -> Vec<(String, &'static str)> {
    let cut = word.rfind([' ', '*']).unwrap() + 1;
    let kind = match word[..cut].trim() {
        "const void *" => "bytes read",
        "void *" => "bytes written",
        "size_t" => "length",
        "uint64_t" => "number",
        other => panic!("a type that no function has: {other}"),
    };
    vec![(word[cut..].to_string(), kind)]
}

fn rust_parameter(word: &str) -> Vec<(String, &'static str)> {
    let (name, kind) = word.split_once(": ").unwrap();
    let kind = match kind {
        "*const u8" => "bytes read",
        "*mut u8" => "bytes written",
        "usize" => "length",
        "u64" => "number",
        other => panic!("a type that no function has: {other}"),
    };
    vec![(name.to_string(), kind)]
}

/// The text of a Rattle function, up to the brace that closes it.
pub fn body<'a>(text: &'a str, name: &str) -> &'a str {
    let start = text.find(&format!("fn {name}(")).unwrap();
    text[start..].split("\n}").next().unwrap()
}

/// How many values each list has that a text gives: one that is named before, or one that stands in the call of `give`.
pub fn field_counts(text: &str) -> Vec<usize> {
    let mut counts = Vec::new();
    let mut rest = text;
    while let Some((start, end)) = next_list(rest) {
        let (list, after) = rest[start..].split_once(end).unwrap();
        counts.push(list.split_once("; ").map_or_else(|| items(list), |(_, count)| count.parse().unwrap()));
        rest = after;
    }
    counts
}

/// Where the next such list begins in a text, and what ends it.
fn next_list(text: &str) -> Option<(usize, &'static str)> {
    let forms = [("let values = [", "];"), (", &[", "])")];
    forms.iter().filter_map(|(begin, end)| text.find(begin).map(|at| (at + begin.len(), *end))).min()
}

/// How many words with commas between them, one after the last allowed.
fn items(list: &str) -> usize {
    list.split(',').filter(|item| !item.trim().is_empty()).count()
}
