//! Links libshard.a from the folder that TYVARMOS_LIB names, or from target/staticlib at the repository's top.

use std::path::{Path, PathBuf};
use std::{env, process};

fn main() {
    println!("cargo:rerun-if-env-changed=TYVARMOS_LIB");
    let folder = folder();
    let library = folder.join("libshard.a");
    println!("cargo:rerun-if-changed={}", library.display());
    if !library.is_file() {
        eprintln!(
            "tyvarmos: there is no {}: run `tools/staticlib shard` at the repository's top, which proves and writes it, \
             or name the folder that has a libshard.a in TYVARMOS_LIB",
            library.display()
        );
        process::exit(1);
    }
    println!("cargo:rustc-link-search=native={}", folder.display());
    println!("cargo:rustc-link-lib=static=shard");
}

/// The folder that is to hold the library.
fn folder() -> PathBuf {
    let top = Path::new(env!("CARGO_MANIFEST_DIR")).join("../..");
    let folder = env::var_os("TYVARMOS_LIB").map_or(top.join("target/staticlib"), PathBuf::from);
    folder.canonicalize().unwrap_or(folder)
}
