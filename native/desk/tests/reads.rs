//! The built desk program where a read gives a single byte, is interrupted, or fails: another
//! `read` is loaded before the C library's.

use desk::program::{printed, scripted_calls, Folder};
use generator::named::{plan_f, study_game};
use reference::report::report;

/// What the program prints for document 01's game with plan F where its reads go by a script:
/// `a` as they are, `s` a single byte, `i` interrupted, `f` failing.
fn printed_by(script: &str) -> String {
    let folder = Folder::new().unwrap();
    let plan = plan_f().bytes().unwrap();
    folder.put(&study_game().bytes().unwrap(), &plan).unwrap();
    let calls = scripted_calls(env!("CARGO_TARGET_TMPDIR"));
    let mut command = folder.command();
    command.env("LD_PRELOAD", calls).env("READS", script);
    printed(&mut command).unwrap()
}

fn whole() -> String {
    let plan = plan_f().bytes().unwrap();
    report(&study_game().bytes().unwrap(), &plan)
}

#[test]
fn single_bytes_make_a_whole_file() {
    assert_eq!(printed_by("a"), whole());
    assert_eq!(printed_by("s"), whole());
}

#[test]
fn an_interrupted_read_is_made_again() {
    assert_eq!(printed_by("is"), whole());
    assert_eq!(printed_by(&("i".repeat(999) + "a")), whole());
}

#[test]
fn a_read_that_is_always_interrupted_fails() {
    assert_eq!(printed_by("i"), "refusal 1\n");
    assert_eq!(printed_by(&("i".repeat(1_000) + "a")), "refusal 1\n");
}

/// A whole file is read by two calls, the second at its end.
#[test]
fn a_file_whose_reading_fails_halfway_counts_as_empty() {
    for script in ["f", "sf", "ssssssf", "af"] {
        assert_eq!(printed_by(script), "refusal 1\n", "{script}");
    }
    for script in ["aaf", "aasf", "aaaf"] {
        assert_eq!(printed_by(script), "refusal 14\n", "{script}");
    }
}
