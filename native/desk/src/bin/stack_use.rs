//! How much stack each export takes on the deepest and the largest games: the smallest stack of
//! a thread, in whole KiB, in which it still ends. A stack overflow ends the whole process, so
//! each size is tried in a process of its own.

use desk::every_export::{deepest_and_largest, EXPORTS};
use std::process::{Command, Stdio};
use std::{env, process, thread};

const MOST_KIB: usize = 4_096;

/// Makes the call on each game in a thread with so much stack.
fn run_in(name: &str, kib: usize) {
    let files = deepest_and_largest().expect("games and plans that fit");
    let mut exports = EXPORTS.into_iter();
    let (_, call) = exports.find(|(own, _)| *own == name).expect("an export");
    let work = move || {
        for files in &files {
            assert_eq!(call(files), Ok(()));
        }
    };
    let thread = thread::Builder::new().stack_size(kib << 10).spawn(work);
    thread.expect("a thread").join().expect("no panic");
}

/// Whether the call ends in a process of its own with so much stack.
fn ends_in(name: &str, kib: usize) -> bool {
    let program = env::current_exe().expect("a path");
    let status = Command::new(program)
        .args([name, &kib.to_string()])
        .stderr(Stdio::null())
        .status();
    status.expect("a process").success()
}

fn least(name: &str) -> usize {
    let (mut too_small, mut enough) = (0, MOST_KIB);
    assert!(ends_in(name, enough), "{name} needs more than {enough} KiB");
    while too_small + 1 < enough {
        let middle = (too_small + enough) / 2;
        if ends_in(name, middle) {
            enough = middle;
        } else {
            too_small = middle;
        }
    }
    enough
}

fn main() {
    let args: Vec<String> = env::args().skip(1).collect();
    match args.as_slice() {
        [] => {
            for (name, _) in EXPORTS {
                println!("{name}: {} KiB", least(name));
            }
        }
        [name, kib] => run_in(name, kib.parse().expect("a number")),
        _ => process::exit(2),
    }
}
