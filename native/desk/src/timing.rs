//! How the benchmarks measure: the variants in turn, the best of many passes.

use std::io;
use std::time::{Duration, Instant};

const ROUNDS: usize = 60;

/// After so long no round is begun, but for the first few.
const LONGEST: Duration = Duration::from_secs(6);
const FEW: usize = 3;

/// One pass over all files.
pub type Run<'a> = Box<dyn FnMut() + 'a>;

/// The best time of each run, in microseconds for each of its `count` files.
pub fn best_of<const RUNS: usize>(count: usize, mut runs: [Run; RUNS]) -> [f64; RUNS] {
    let best = best_of_all(count, &mut runs);
    best.try_into().expect("a time for each run")
}

/// The same for any number of runs.
pub fn best_of_all(count: usize, runs: &mut [Run]) -> Vec<f64> {
    let mut best = vec![f64::MAX; runs.len()];
    let begin = Instant::now();
    for round in 0..ROUNDS {
        if round >= FEW && begin.elapsed() > LONGEST {
            break;
        }
        for (run, best) in runs.iter_mut().zip(&mut best) {
            let start = Instant::now();
            run();
            let each = start.elapsed().as_secs_f64() * 1e6 / count as f64;
            *best = best.min(each);
        }
    }
    best
}

/// The least time of so many runs, each of which tells its own.
pub fn least(runs: usize, run: impl FnMut() -> io::Result<f64>) -> io::Result<f64> {
    let times: io::Result<Vec<f64>> = std::iter::repeat_with(run).take(runs).collect();
    Ok(times?.into_iter().fold(f64::MAX, f64::min))
}
