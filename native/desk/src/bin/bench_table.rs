//! The payoff table, beside plain Rust by the same method and by a free choice of method.

use desk::bench::Bench;
use desk::form::TableBuffers;
use reference::limits::MOST_ENTRIES;
use std::error::Error;

fn main() -> Result<(), Box<dyn Error>> {
    let bench = Bench {
        name: "table",
        lent: TableBuffers::with_room(MOST_ENTRIES),
        call: |variant, pair, lent| variant.payoff_table(&pair.game, lent),
    };
    bench.run()
}
