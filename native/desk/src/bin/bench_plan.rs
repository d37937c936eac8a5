//! The check of game and plan with all fields of the plan, beside plain Rust by the same method
//! and by a free choice of method.

use desk::bench::Bench;
use desk::PlanBuffers;
use reference::limits::MOST_ENTRIES;
use std::error::Error;

fn main() -> Result<(), Box<dyn Error>> {
    let bench = Bench {
        name: "plan",
        lent: PlanBuffers::with_room(MOST_ENTRIES),
        call: |variant, pair, lent| variant.plan_fields(&pair.game, &pair.plan, lent),
    };
    bench.run()
}
