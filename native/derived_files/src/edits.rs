//! The must-fail edits of all crates.

use crate::notes::{self, Kind, Notes};
use crate::read;
use std::collections::BTreeMap;
use std::fs;
use std::path::{Path, PathBuf};

/// The crate of the definitions.
const MODEL: &str = "model";

#[derive(Clone, Debug, PartialEq, Eq)]
pub struct Edit {
    pub of_crate: String,
    pub name: String,
    pub notes: Notes,
    pub place: Place,
}

/// Where an edit's last change stands: a file of the crate, and how many bytes are before it.
#[derive(Clone, Debug, PartialEq, Eq, PartialOrd, Ord)]
pub struct Place {
    pub file: String,
    pub at: usize,
}

/// A text of a file and what it becomes.
#[derive(Clone, Debug, PartialEq, Eq)]
pub struct Change {
    pub file: String,
    pub old: String,
    pub new: String,
}

/// All edits, by crate and then in the order of the places that they change; or what is wrong
/// with each that is wrong.
pub fn read_all(repository: &Path) -> Result<Vec<Edit>, String> {
    let mut edits = Vec::new();
    let mut wrong = Vec::new();
    for of_crate in names_in(&repository.join("crates"))? {
        let folder = repository.join("crates").join(&of_crate);
        for name in edits_of(&folder)? {
            match read_one(&folder, &of_crate, &name) {
                Ok(edit) => edits.push(edit),
                Err(reason) => wrong.push(format!("{of_crate}/must-fail/{name}.edit: {reason}")),
            }
        }
    }
    if !wrong.is_empty() {
        return Err(wrong.join("\n"));
    }
    let order = |edit: &Edit| {
        let (of_crate, name) = (edit.of_crate.clone(), edit.name.clone());
        (of_crate, edit.place.clone(), name)
    };
    edits.sort_by_key(order);
    Ok(edits)
}

/// What a folder holds, in order.
fn names_in(folder: &Path) -> Result<Vec<String>, String> {
    let wrong = |error| format!("{}: {error}", folder.display());
    let mut names = Vec::new();
    for entry in fs::read_dir(folder).map_err(wrong)? {
        let name = entry.map_err(wrong)?.file_name();
        names.push(name.to_string_lossy().into_owned());
    }
    names.sort();
    Ok(names)
}

/// The names of a crate's edits.
fn edits_of(folder: &Path) -> Result<Vec<String>, String> {
    let folder = folder.join("must-fail");
    if !folder.exists() {
        return Ok(Vec::new());
    }
    let files = names_in(&folder)?;
    let names = files.iter().filter_map(|file| file.strip_suffix(".edit"));
    Ok(names.map(String::from).collect())
}

fn read_one(folder: &Path, of_crate: &str, name: &str) -> Result<Edit, String> {
    let path: PathBuf = folder.join("must-fail").join(format!("{name}.edit"));
    let text = read(&path)?;
    let notes = notes::read(&text)?;
    if notes.has(Kind::Definition) != (of_crate == MODEL) {
        return Err(format!("`definition:` is for the edits of {MODEL}"));
    }
    Ok(Edit {
        of_crate: of_crate.to_string(),
        name: name.to_string(),
        notes,
        place: place(&changes(&text), |file| read(&folder.join(file)))?,
    })
}

/// The changes of an edit, given as its text, as `rt` reads them.
pub fn changes(edit: &str) -> Vec<Change> {
    let mut changes = Vec::new();
    let (mut file, mut old) = ("", "");
    for line in edit.lines() {
        if let Some(path) = line.strip_prefix("file: ") {
            file = path;
        } else if let Some(text) = line.strip_prefix("old: ") {
            old = text;
        } else if let Some(text) = line.strip_prefix("new:") {
            changes.push(Change {
                file: file.to_string(),
                old: old.to_string(),
                new: text.strip_prefix(' ').unwrap_or(text).to_string(),
            });
            old = "";
        }
    }
    changes
}

/// Makes the changes one after the other, each of a text that must stand exactly once, and gives
/// the place of the last.
pub fn place(
    changes: &[Change],
    read: impl Fn(&str) -> Result<String, String>,
) -> Result<Place, String> {
    let mut texts: BTreeMap<&str, String> = BTreeMap::new();
    let mut place = Err("it changes nothing".to_string());
    for Change { file, old, new } in changes {
        let text = match texts.remove(file.as_str()) {
            Some(text) => text,
            None => read(file)?,
        };
        let places: Vec<usize> = text.match_indices(old).map(|(at, _)| at).collect();
        let [at] = places[..] else {
            let times = places.len();
            return Err(format!("`old:` stands {times} times in {file}: {old}"));
        };
        texts.insert(file, text.replacen(old, new, 1));
        place = Ok(Place {
            file: file.clone(),
            at,
        });
    }
    place
}
