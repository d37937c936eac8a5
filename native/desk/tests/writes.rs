//! The desk program where standard output takes single bytes, or not all of its text, or a write
//! is interrupted: a text that is not taken whole is told of on standard error.

use desk::program::{scripted_calls, Folder};
use generator::named::{plan_f, plan_m, study_game};
use reference::report::report;
use std::fs::OpenOptions;
use std::process::{Command, Output, Stdio};

const NOT_WHOLE: &str = "the text was not written whole\n";

/// Runs the program on the study game and a plan, in a way of one's own.
fn run(plan: &[u8], way: impl FnOnce(&mut Command)) -> [String; 2] {
    let folder = Folder::new().unwrap();
    folder.put(&study_game().bytes().unwrap(), plan).unwrap();
    let mut command = folder.command();
    way(&mut command);
    let Output {
        status,
        stdout,
        stderr,
    } = command.output().unwrap();
    assert!(status.success());
    [stdout, stderr].map(|text| String::from_utf8(text).unwrap())
}

/// What it writes to standard output and to standard error where its writes to standard output
/// go by a script.
fn written_by(plan: &[u8], script: &str) -> [String; 2] {
    let calls = scripted_calls(env!("CARGO_TARGET_TMPDIR"));
    run(plan, |command| {
        command.env("LD_PRELOAD", calls).env("WRITES", script);
    })
}

fn f() -> Vec<u8> {
    plan_f().bytes().unwrap()
}

fn m() -> Vec<u8> {
    plan_m().bytes().unwrap()
}

fn whole(plan: &[u8]) -> String {
    report(&study_game().bytes().unwrap(), plan)
}

#[test]
fn a_full_device_takes_no_text() {
    let full = OpenOptions::new().write(true).open("/dev/full").unwrap();
    let [_, errors] = run(&f(), |command| {
        command.stdout(Stdio::from(full));
    });
    assert_eq!(errors, NOT_WHOLE);
}

#[test]
fn nothing_is_said_of_a_text_that_is_taken() {
    assert_eq!(run(&f(), |_| ()), [whole(&f()), String::new()]);
}

#[test]
fn single_bytes_make_a_whole_text() {
    for script in ["a", "s", "sa"] {
        let wanted = [whole(&f()), String::new()];
        assert_eq!(written_by(&f(), script), wanted, "{script}");
    }
}

/// The tries are counted for each write anew.
#[test]
fn an_interrupted_write_is_made_again() {
    let last_try = "i".repeat(999);
    for script in ["ia", "is", "iis", &format!("{last_try}s")] {
        let wanted = [whole(&f()), String::new()];
        assert_eq!(written_by(&f(), script), wanted, "{script}");
    }
}

#[test]
fn a_write_that_is_always_interrupted_fails() {
    let no_more = "i".repeat(1_000);
    for (script, taken) in [
        ("i", 0),
        (&format!("{no_more}a"), 0),
        (&format!("s{no_more}a"), 1),
    ] {
        let wanted = [&whole(&f())[..taken], NOT_WHOLE];
        assert_eq!(written_by(&f(), script), wanted, "{script}");
    }
}

#[test]
fn a_write_that_fails_or_takes_nothing_is_the_last() {
    for (script, taken) in [("fa", 0), ("na", 0), ("sfa", 1), ("sna", 1)] {
        let wanted = [&whole(&f())[..taken], NOT_WHOLE];
        assert_eq!(written_by(&f(), script), wanted, "{script}");
    }
}

/// Cut anywhere, the text of an accepted pair does not end in the line that says so, and that of
/// any other nowhere has the word.
#[test]
fn a_text_that_is_cut_does_not_end_in_accepted() {
    assert!(whole(&m()).ends_with("\naccepted\n"));
    for plan in [m(), f(), vec![]] {
        let text = whole(&plan);
        for cut in 0..text.len() {
            let [taken, errors] = written_by(&plan, &("s".repeat(cut) + "f"));
            assert_eq!(taken, text[..cut]);
            assert_eq!(errors, NOT_WHOLE);
            assert!(!taken.ends_with("accepted\n"));
            assert!(plan == m() || !taken.contains("accepted"));
        }
    }
}
