//! Says where the static library stands, which `src/exports.rs` names.

use std::path::Path;

fn main() {
    let root = std::env::var("CARGO_MANIFEST_DIR").expect("cargo sets it");
    let archives = Path::new(&root).join("../../crates/desk_exports/out");
    println!("cargo:rustc-link-search=native={}", archives.display());
    println!("cargo:rerun-if-changed={}", archives.display());
}
