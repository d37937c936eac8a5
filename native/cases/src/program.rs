//! What stands beside a program's source: the files that it is run on and
//! what it must write.

use std::collections::BTreeMap;
use std::fs;
use std::io;
use std::path::{Path, PathBuf};

/// Contents by their path below the program's crate.
pub type Files = BTreeMap<PathBuf, Vec<u8>>;

pub struct Program {
    name: &'static str,
    files: Files,
}

impl Program {
    /// A program with its data files by name and the text that it must write.
    pub fn new(name: &'static str, data: Vec<(String, Vec<u8>)>, stdout: String) -> Self {
        let data = data.into_iter();
        let mut files: Files = data
            .map(|(file, bytes)| (Path::new("data").join(file), bytes))
            .collect();
        files.insert(PathBuf::from("stdout"), stdout.into_bytes());
        Program { name, files }
    }

    /// The name of the program and of its crate.
    pub fn name(&self) -> &'static str {
        self.name
    }

    /// The files as they are to be committed.
    pub fn files(&self) -> &Files {
        &self.files
    }

    /// The files as they stand in the repository.
    pub fn committed(&self) -> io::Result<Files> {
        let folder = folder(self.name);
        let mut paths = vec![PathBuf::from("stdout")];
        add_paths(&folder, Path::new("data"), &mut paths)?;
        let read = |path: PathBuf| Ok((path.clone(), fs::read(folder.join(path))?));
        paths.into_iter().map(read).collect()
    }

    /// Writes the files into the repository, in the place of those there.
    pub fn write(&self) -> io::Result<()> {
        let folder = folder(self.name);
        let data = folder.join("data");
        if data.exists() {
            fs::remove_dir_all(&data)?;
        }
        for (path, bytes) in &self.files {
            let path = folder.join(path);
            if let Some(parent) = path.parent() {
                fs::create_dir_all(parent)?;
            }
            fs::write(path, bytes)?;
        }
        Ok(())
    }
}

/// A committed file of a program.
pub fn committed(name: &str, path: &str) -> io::Result<Vec<u8>> {
    fs::read(folder(name).join(path))
}

/// A committed file of a program that is a text.
pub fn committed_text(name: &str, path: &str) -> io::Result<String> {
    fs::read_to_string(folder(name).join(path))
}

fn folder(name: &str) -> PathBuf {
    let crates = Path::new(env!("CARGO_MANIFEST_DIR")).join("../../crates");
    crates.join(name)
}

/// Adds the files at and below a path of the program's crate.
fn add_paths(folder: &Path, path: &Path, paths: &mut Vec<PathBuf>) -> io::Result<()> {
    if !folder.join(path).is_dir() {
        paths.push(path.to_path_buf());
        return Ok(());
    }
    for entry in fs::read_dir(folder.join(path))? {
        add_paths(folder, &path.join(entry?.file_name()), paths)?;
    }
    Ok(())
}
