//! The tables of edits, and the page that has them between marks.

use crate::edits::Edit;
use crate::notes::{Kind, Notes, Subject, DESKS, TURNS};

/// What ends each table's place in the page.
const END: &str = "<!-- end of the table -->\n";

/// What begins the place of a table.
pub fn beginning(table: &str) -> String {
    format!("<!-- {table}: written by native/derived_files from the notes of the edits -->\n")
}

/// The page with every table as it is to be.
pub fn written(page: &str, edits: &[Edit]) -> Result<String, String> {
    let tables = [
        ("wrong definitions", definitions(edits)),
        ("wrong code", by_subject(edits, Kind::Code)),
        ("wrong statements", by_subject(edits, Kind::Statement)),
        (
            "wrong desks",
            named(edits, "wrong desk", &DESKS, |notes| &notes.desk)?,
        ),
        (
            "wrong turns",
            named(edits, "wrong turn", &TURNS, |notes| &notes.turn)?,
        ),
    ];
    let page = page.to_string();
    tables.iter().try_fold(page, |page, (name, table)| {
        filled(&page, name, table).ok_or(format!("the page has no place for the {name}"))
    })
}

/// The page with one table in its place.
pub fn filled(page: &str, name: &str, table: &str) -> Option<String> {
    let beginning = beginning(name);
    let (before, rest) = page.split_once(&beginning)?;
    let (_, after) = rest.split_once(END)?;
    Some(format!("{before}{beginning}\n{table}\n{END}{after}"))
}

/// A table of its head and its rows.
fn table<const N: usize>(head: [&str; N], rows: &[[String; N]]) -> String {
    let mut table = format!("| {} |\n|{}\n", head.join(" | "), "---|".repeat(N));
    for row in rows {
        let cells = row.iter().map(|cell| match cell.as_str() {
            "" => " |".to_string(),
            cell => format!(" {cell} |"),
        });
        table += &format!("|{}\n", cells.collect::<String>());
    }
    table
}

/// The edits of definitions, with what no longer holds.
pub fn definitions(edits: &[Edit]) -> String {
    let rows = edits.iter().flat_map(|edit| {
        let subjects = of_kind(edit, Kind::Definition);
        subjects.map(|subject| [shown(edit, subject), subject.name.clone(), fact(edit)])
    });
    let head = ["edit", "definition", "what no longer holds"];
    table(head, &rows.collect::<Vec<_>>())
}

/// The edits by crate and function.
pub fn by_subject(edits: &[Edit], kind: Kind) -> String {
    let mut rows: Vec<[String; 3]> = Vec::new();
    for edit in edits {
        for subject in of_kind(edit, kind) {
            let (of_crate, of) = (format!("`{}`", edit.of_crate), &subject.name);
            let shown = shown(edit, subject);
            let row = rows
                .iter_mut()
                .find(|row| row[0] == of_crate && row[1] == *of);
            match row {
                Some([_, _, edits]) => *edits += &format!(", {shown}"),
                None => rows.push([of_crate, of.clone(), shown]),
            }
        }
    }
    for at in (1..rows.len()).rev() {
        if rows[at][0] == rows[at - 1][0] {
            rows[at][0].clear();
        }
    }
    table(["crate", "function", "edits"], &rows)
}

/// The edits by what document 01 calls them, in its order, with the facts that refuse them.
pub fn named(
    edits: &[Edit],
    head: &str,
    names: &[&str],
    name_of: impl Fn(&Notes) -> &Option<String>,
) -> Result<String, String> {
    let mut rows = Vec::new();
    for name in names {
        let ours = edits
            .iter()
            .filter(|edit| name_of(&edit.notes).as_deref() == Some(name));
        let (mut shown, mut facts) = (Vec::new(), Vec::new());
        for edit in ours {
            shown.push(format!("`{}/{}`", edit.of_crate, edit.name));
            facts.push(fact(edit));
        }
        if shown.is_empty() {
            return Err(format!("no edit is the {head} \"{name}\""));
        }
        facts.dedup();
        rows.push([name.to_string(), shown.join(", "), facts.join("; ")]);
    }
    Ok(table([head, "edit", "the fact that refuses it"], &rows))
}

fn of_kind(edit: &Edit, kind: Kind) -> impl Iterator<Item = &Subject> {
    let subjects = edit.notes.subjects.iter();
    subjects.filter(move |subject| subject.kind == kind)
}

/// An edit's name with the remark on it.
fn shown(edit: &Edit, subject: &Subject) -> String {
    match &subject.remark {
        Some(remark) => format!("`{}` ({remark})", edit.name),
        None => format!("`{}`", edit.name),
    }
}

fn fact(edit: &Edit) -> String {
    edit.notes.fact.clone().unwrap_or_default()
}
