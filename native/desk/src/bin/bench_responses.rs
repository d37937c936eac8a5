//! Best responses by themselves, on what is prepared once of a game, beside plain Rust by the
//! same method. The proved ones are made by the program `time_responses` (after `rt run` in
//! `crates/time_responses`): two runs differ by the best responses that one makes more.

use desk::plain::responses::Prepared;
use desk::plain::BitLoop;
use desk::samples::{samples, Pair};
use desk::timing::least;
use desk::Refusal;
use std::hint::black_box;
use std::path::{Path, PathBuf};
use std::process::Command;
use std::time::Instant;
use std::{env, fs, io, process};

/// The player who responds.
const PLAYER: usize = 0;

const FEW: u16 = 1_000;
const MANY: u16 = 5_000;
const ROUNDS: usize = 9;

/// How long the program takes for so many best responses, with all that it does before.
fn program_time(program: &Path, folder: &Path, times: u16) -> io::Result<f64> {
    fs::write(folder.join("times"), times.to_be_bytes())?;
    let start = Instant::now();
    let output = Command::new(program).current_dir(folder).output()?;
    let time = start.elapsed().as_secs_f64();
    assert!(output.stdout.starts_with(b"best move"));
    Ok(time)
}

/// One best response of the proved code, in microseconds.
fn proved(program: &Path, folder: &Path, pair: &Pair) -> io::Result<f64> {
    fs::write(folder.join("game.bin"), &pair.game)?;
    fs::write(folder.join("plan.bin"), &pair.plan)?;
    let few = least(ROUNDS, || program_time(program, folder, FEW))?;
    let many = least(ROUNDS, || program_time(program, folder, MANY))?;
    Ok((many - few) * 1e6 / f64::from(MANY - FEW))
}

/// One best response of plain Rust, in microseconds.
fn plain(pair: &Pair) -> io::Result<f64> {
    let prepared = Prepared::of::<BitLoop>(&pair.game, &pair.plan, PLAYER);
    let mut prepared = prepared.map_err(refused)?;
    let time = least(ROUNDS, || {
        let start = Instant::now();
        for _ in FEW..MANY {
            black_box(black_box(&mut prepared).respond());
        }
        Ok(start.elapsed().as_secs_f64())
    })?;
    Ok(time * 1e6 / f64::from(MANY - FEW))
}

fn refused(refusal: Refusal) -> io::Error {
    io::Error::other(format!("refusal {refusal}"))
}

fn program() -> PathBuf {
    Path::new(env!("CARGO_MANIFEST_DIR")).join("../../crates/time_responses/out/time_responses")
}

fn main() -> io::Result<()> {
    let folder = env::temp_dir().join(format!("bench_responses-{}", process::id()));
    fs::create_dir_all(&folder)?;
    for sample in samples().map_err(refused)? {
        if !sample.name.contains("4095") {
            continue;
        }
        let (mut first, mut second) = (0.0, 0.0);
        for pair in &sample.pairs {
            first += proved(&program(), &folder, pair)?;
            second += plain(pair)?;
        }
        let count = sample.pairs.len() as f64;
        let (first, second) = (first / count, second / count);
        let ratio = first / second;
        println!(
            "{}: proved {first:.1} us, plain Rust {second:.1} us, ratio {ratio:.2}",
            sample.name
        );
    }
    fs::remove_dir_all(&folder)
}
