//! Writes the examples' files.

use std::fs;
use std::io;

fn main() -> io::Result<()> {
    let examples = example_pairs::all();
    let examples =
        examples.map_err(|refusal| io::Error::other(format!("a writer gives {refusal}")))?;
    for example in examples {
        let folder = example.folder();
        fs::create_dir_all(&folder)?;
        for (name, bytes) in example.files() {
            fs::write(folder.join(name), bytes)?;
        }
    }
    Ok(())
}
