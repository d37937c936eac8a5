//! Writes the derived files anew.

use derived_files::{all, repository};
use std::fs;
use std::process::ExitCode;

fn main() -> ExitCode {
    match write_all() {
        Ok(()) => ExitCode::SUCCESS,
        Err(reason) => {
            eprintln!("{reason}");
            ExitCode::FAILURE
        }
    }
}

fn write_all() -> Result<(), String> {
    let repository = repository();
    for file in all(&repository)? {
        let path = repository.join(file.path);
        fs::write(path, file.text).map_err(|error| format!("{}: {error}", file.path))?;
    }
    Ok(())
}
