//! What the archive of the library needs from outside, so that it links beside little else.

use std::collections::BTreeSet;
use std::path::Path;
use std::process::Command;

const NEEDED: [&str; 2] = ["memcpy", "memset"];

#[test]
fn the_archive_needs_memcpy_and_memset_alone() {
    let root = Path::new(env!("CARGO_MANIFEST_DIR"));
    let archive = root.join("../../crates/desk_exports/out/libdesk_exports.a");
    let listed = Command::new("nm").arg("-u").arg(archive).output().unwrap();
    assert!(listed.status.success());
    let listed = String::from_utf8(listed.stdout).unwrap();
    let undefined = |line: &str| line.trim().strip_prefix("U ").map(str::to_string);
    let names: BTreeSet<String> = listed.lines().filter_map(undefined).collect();
    assert_eq!(names, NEEDED.map(str::to_string).into());
}
