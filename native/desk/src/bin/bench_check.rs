//! The check of games, beside plain Rust by the same method and by a free choice of method.

use desk::bench::Bench;
use std::error::Error;

fn main() -> Result<(), Box<dyn Error>> {
    let bench = Bench {
        name: "check",
        lent: (),
        call: |variant, pair, _| variant.check_game(&pair.game).map(|_| ()),
    };
    bench.run()
}
