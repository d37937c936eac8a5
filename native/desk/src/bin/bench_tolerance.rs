//! The house tolerance, beside plain Rust by the same method and by a free choice of method, and
//! beside the library's verdict.

use desk::bench::{verdict, Bench};
use std::error::Error;

/// A whole payoff point.
const TOLERANCE: u16 = 1_000;

fn main() -> Result<(), Box<dyn Error>> {
    let bench = Bench {
        name: "tolerance",
        lent: 0,
        call: |variant, pair, lent| variant.tolerates(&pair.game, &pair.plan, TOLERANCE, lent),
    };
    bench.run_beside(&verdict())
}
