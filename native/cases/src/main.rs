//! Writes the data files and the expected output of every program.

use std::io;

fn main() -> io::Result<()> {
    let programs = cases::programs();
    let programs =
        programs.map_err(|refusal| io::Error::other(format!("a writer gives {refusal}")))?;
    programs.iter().try_for_each(|program| program.write())
}
