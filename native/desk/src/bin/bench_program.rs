//! The built desk program as a process of its own, from file to text: the least of
//! several runs on each pair.

use desk::program::{built, printed};
use desk::timing::least;
use std::path::Path;
use std::process::Command;
use std::time::Instant;
use std::{fs, io};

const RUNS: usize = 30;

const PAIRS: [&str; 5] = [
    "examples/study-f",
    "examples/leduc-averaged",
    "crates/try_report/data/00-most-sets",
    "crates/try_report/data/00-path-of-255-sets-of-player-1",
    "crates/try_report/data/00-longest-listing",
];

/// One run in a folder: its seconds, and the bytes of its text.
fn run(folder: &Path) -> io::Result<(f64, usize)> {
    let start = Instant::now();
    let text = printed(Command::new(built()).current_dir(folder))?;
    Ok((start.elapsed().as_secs_f64(), text.len()))
}

fn main() -> io::Result<()> {
    let root = Path::new(env!("CARGO_MANIFEST_DIR")).join("../..");
    for pair in PAIRS {
        let folder = root.join(pair);
        let game = fs::metadata(folder.join("game.bin"))?.len();
        let (_, text) = run(&folder)?;
        let seconds = least(RUNS, || Ok(run(&folder)?.0))?;
        let time = seconds * 1e3;
        println!("{pair}: game file {game} bytes, text {text} bytes, {time:.1} ms");
    }
    Ok(())
}
