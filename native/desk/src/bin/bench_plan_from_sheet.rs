//! A plan made from a play sheet, beside plain Rust by the same method and by a free choice of
//! method.

use desk::bench::Bench;
use desk::Output;
use std::error::Error;

/// As long as any plan file.
const ROOM: usize = 6_145;

fn main() -> Result<(), Box<dyn Error>> {
    let bench = Bench {
        name: "plan from a sheet",
        lent: Output::with_room(ROOM),
        call: |variant, pair, lent| variant.plan_from_sheet(&pair.game, &pair.sheet, lent),
    };
    bench.run()
}
