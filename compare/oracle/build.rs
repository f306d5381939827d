//! Writes the root that names the crate's files where they lie: in JAMMDB_SRC, or in ../shared/docs/src beside the
//! repository.

use std::path::{Path, PathBuf};
use std::{env, fs};

const FILES: [&str; 12] = [
    "bucket.rs",
    "bytes.rs",
    "cursor.rs",
    "data.rs",
    "db.rs",
    "errors.rs",
    "freelist.rs",
    "meta.rs",
    "node.rs",
    "page.rs",
    "page_node.rs",
    "tx.rs",
];

fn main() {
    let source = source();
    let mut root = String::new();
    for file in FILES {
        let path = source.join(file);
        assert!(path.is_file(), "no {}: set JAMMDB_SRC to the folder with jammdb's source", path.display());
        println!("cargo:rerun-if-changed={}", path.display());
        root += &module(file.trim_end_matches(".rs"), &path);
    }
    println!("cargo:rerun-if-env-changed=JAMMDB_SRC");
    let out = Path::new(&env::var_os("OUT_DIR").unwrap()).join("root.rs");
    fs::write(out, root).unwrap();
}

/// The folder with the crate's source.
fn source() -> PathBuf {
    let top = Path::new(env!("CARGO_MANIFEST_DIR")).join("../..");
    let named = env::var_os("JAMMDB_SRC").map(PathBuf::from);
    let source = named.unwrap_or(top.join("../shared/docs/src"));
    source.canonicalize().unwrap_or(source)
}

/// A module at the crate's file; db.rs is joined by what the papers lack of it.
fn module(name: &str, path: &Path) -> String {
    if name != "db" {
        return format!("#[allow(warnings)]\n#[path = {path:?}]\nmod {name};\n");
    }
    let standin = Path::new(env!("CARGO_MANIFEST_DIR")).join("src/db_standin.rs");
    format!("#[allow(warnings)]\nmod db {{\n    include!({path:?});\n    include!({standin:?});\n}}\n")
}
