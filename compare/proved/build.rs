//! Links the proved libraries that tools/staticlib writes into target/staticlib at the repository's top.

use std::path::Path;

fn main() {
    let folder = Path::new(env!("CARGO_MANIFEST_DIR")).join("../../target/staticlib");
    println!("cargo:rustc-link-search=native={}", folder.display());
    for name in ["shard", "probe"] {
        println!("cargo:rustc-link-lib=static={name}");
        println!("cargo:rerun-if-changed={}", folder.join(format!("lib{name}.a")).display());
    }
}
