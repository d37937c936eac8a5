//! The exports in threads with little stack.

use desk::every_export::{deepest_and_largest, EXPORTS};
use std::thread;

const STACK: usize = 1 << 20;

/// Each export on the deepest and the largest games, in a thread of 1 MiB; an overflow would end
/// the whole process.
#[test]
fn every_export_ends_in_1_mib() {
    let files = deepest_and_largest().unwrap();
    let work = move || {
        for files in &files {
            for (name, call) in EXPORTS {
                assert_eq!(call(files), Ok(()), "{name}");
            }
        }
    };
    let thread = thread::Builder::new().stack_size(STACK).spawn(work);
    thread.expect("a thread").join().expect("no overflow");
}
