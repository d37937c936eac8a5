//! The committed files are those that the sources give.

use derived_files::{all, edits, exports, read, repository, source, COMMAND};
use std::fs;

#[test]
fn the_committed_files_are_current() {
    let repository = repository();
    let files = all(&repository).unwrap_or_else(|reason| panic!("{reason}"));
    for file in files {
        let committed = fs::read_to_string(repository.join(file.path)).unwrap_or_default();
        assert!(
            committed == file.text,
            "{} is stale: write it anew by `{COMMAND}` in native/",
            file.path
        );
    }
}

/// As the page says of them: an export hands all that it is lent to the function that decides its
/// answer, which has its edits.
#[test]
fn each_export_has_two_edits() {
    let repository = repository();
    let edits = edits::read_all(&repository).unwrap();
    let source = read(&repository.join(source())).unwrap();
    for export in exports::read(&source).unwrap() {
        let function = export.name.trim_start_matches("desk_");
        let (subject, of_crate) = (format!("`{function}`"), decided_in(&source, function));
        let ours = edits.iter().filter(|edit| {
            let mut subjects = edit.notes.subjects.iter();
            edit.of_crate == of_crate && subjects.any(|of| of.name == subject)
        });
        assert!(ours.count() >= 2, "{}", export.name);
    }
}

/// The crate of the function that the exports call by this name.
fn decided_in<'a>(source: &'a str, function: &str) -> &'a str {
    let call = source.find(&format!("::{function}("));
    let before = &source[..call.unwrap_or_else(|| panic!("nothing calls {function}"))];
    let begin = before.rfind(char::is_whitespace);
    &before[begin.map_or(0, |space| space + 1)..]
}
