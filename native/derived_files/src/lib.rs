//! The files that are derived from the sources: what declares the exports to C and to Rust, and
//! the tables of must-fail edits in the architecture's page. What is wrong with a source is said
//! in words.

pub mod edits;
pub mod exports;
pub mod header;
pub mod notes;
pub mod rust;
pub mod tables;
pub mod text;

use std::fs;
use std::path::{Path, PathBuf};

/// The crate of the exports. Its source and its archive are named after it.
pub const EXPORTS_CRATE: &str = "desk_exports";

/// The command that writes the files, to be run in `native/`.
pub const COMMAND: &str = "cargo run --release --offline -p derived_files";

/// The page that has the tables of edits.
const PAGE: &str = "docs/ARCHITECTURE.md";

/// A file as it is to be, by its path from the root of the repository.
pub struct Derived {
    pub path: &'static str,
    pub text: String,
}

/// The root of the repository.
pub fn repository() -> PathBuf {
    Path::new(env!("CARGO_MANIFEST_DIR")).join("../..")
}

/// The Rattle source of the exports, from the root of the repository.
pub fn source() -> String {
    format!("crates/{EXPORTS_CRATE}/src/lib.rt")
}

/// The library, where `rt lib` puts it.
pub fn archive() -> String {
    format!("crates/{EXPORTS_CRATE}/out/lib{EXPORTS_CRATE}.a")
}

/// Every derived file.
pub fn all(repository: &Path) -> Result<Vec<Derived>, String> {
    let exports = exports::read(&read(&repository.join(source()))?)?;
    let edits = edits::read_all(repository)?;
    let page = read(&repository.join(PAGE))?;
    Ok(vec![
        Derived {
            path: "include/desk.h",
            text: header::written(&exports)?,
        },
        Derived {
            path: "native/desk/src/exports.rs",
            text: rust::written(&exports),
        },
        Derived {
            path: PAGE,
            text: tables::written(&page, &edits)?,
        },
    ])
}

/// The text of a file.
pub fn read(path: &Path) -> Result<String, String> {
    fs::read_to_string(path).map_err(|error| format!("{}: {error}", path.display()))
}
