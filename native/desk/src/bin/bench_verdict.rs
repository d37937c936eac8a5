//! The verdict, beside plain Rust by the same method and by a free choice of method.

use desk::bench::verdict;
use std::error::Error;

fn main() -> Result<(), Box<dyn Error>> {
    verdict().run()
}
