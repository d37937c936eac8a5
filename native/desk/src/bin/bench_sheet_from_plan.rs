//! A play sheet made from a plan, beside plain Rust by the same method and by a free choice of
//! method.

use desk::bench::Bench;
use desk::Output;
use std::error::Error;

/// As long as any play sheet.
const ROOM: usize = 6_141;

fn main() -> Result<(), Box<dyn Error>> {
    let bench = Bench {
        name: "sheet from a plan",
        lent: Output::with_room(ROOM),
        call: |variant, pair, lent| variant.sheet_from_plan(&pair.game, &pair.plan, lent),
    };
    bench.run()
}
