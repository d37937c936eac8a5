//! Values and best values, beside plain Rust by the same method and by a free choice of method.

use desk::bench::Bench;
use desk::form::Values;
use std::error::Error;

fn main() -> Result<(), Box<dyn Error>> {
    let bench = Bench {
        name: "values",
        lent: Values::default(),
        call: |variant, pair, lent| variant.values(&pair.game, &pair.plan, lent),
    };
    bench.run()
}
