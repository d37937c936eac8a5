//! Notes and changes of edits, and their tables, worked by hand.

use derived_files::edits::{changes, place, Edit, Place};
use derived_files::notes::{read, Kind, Notes, Subject, DESKS, TURNS};
use derived_files::tables::{beginning, by_subject, definitions, filled, named};

/// An edit with notes that obeys every rule.
const EDIT: &str = "code: `sum`
remark: of the first alone
code: `total`
desk: accepts every pair
fact: the sum is of all
file: src/lib.rt
old: a + b
new: a
old:   last
new:
";

fn subject(kind: Kind, name: &str, remark: Option<&str>) -> Subject {
    Subject {
        kind,
        name: name.to_string(),
        remark: remark.map(String::from),
    }
}

fn edit(of_crate: &str, name: &str, notes: &str) -> Edit {
    Edit {
        of_crate: of_crate.to_string(),
        name: name.to_string(),
        notes: read(notes).unwrap(),
        place: Place {
            file: String::new(),
            at: 0,
        },
    }
}

#[test]
fn notes_stand_before_the_file() {
    let notes = Notes {
        subjects: vec![
            subject(Kind::Code, "`sum`", Some("of the first alone")),
            subject(Kind::Code, "`total`", None),
        ],
        desk: Some("accepts every pair".to_string()),
        turn: None,
        fact: Some("the sum is of all".to_string()),
    };
    assert_eq!(read(EDIT), Ok(notes));
}

#[test]
fn notes_that_say_too_little_or_too_much_are_refused() {
    for notes in [
        "",
        "file: src/lib.rt\n",
        "desk: accepts every pair\nfact: so\n",
        "remark: on nothing\ncode: x\n",
        "code: x\nremark: a\nremark: b\n",
        "code: x\nfact: that no table shows\n",
        "code: x\ndesk: accepts every pair\n",
        "code: x\nturn: left\nfact: so\n",
        "code: x\ndesk: accepts no pair\nfact: so\n",
        "definition: x\n",
        "code: x\nof: y\n",
        "code: x\nsomething else\n",
        "code:\n",
    ] {
        assert!(read(notes).is_err(), "{notes}");
    }
}

#[test]
fn changes_are_read_as_they_are_made() {
    let found: Vec<[String; 3]> = changes(EDIT)
        .into_iter()
        .map(|change| [change.file, change.old, change.new])
        .collect();
    let wanted = [["src/lib.rt", "a + b", "a"], ["src/lib.rt", "  last", ""]];
    assert_eq!(found, wanted);
}

fn placed(edit: &str, text: &str) -> Result<Place, String> {
    place(&changes(edit), |_| Ok(text.to_string()))
}

#[test]
fn the_place_is_that_of_the_last_change() {
    let at = |at| {
        Ok(Place {
            file: "src/lib.rt".to_string(),
            at,
        })
    };
    // The first change takes four bytes away.
    assert_eq!(placed(EDIT, "a + b\n  last\n"), at(2));
    let again = "file: src/lib.rt\nold: a\nnew: b\nold: bb\nnew: c\n";
    assert_eq!(placed(again, ".ab"), at(1));
}

#[test]
fn a_text_that_does_not_stand_once_is_refused() {
    assert!(placed(EDIT, "a + b\n").is_err());
    assert!(placed(EDIT, "  last\n").is_err());
    assert!(placed(EDIT, "a + b\na + b\n  last\n").is_err());
    assert!(placed("code: x\n", "a").is_err());
}

#[test]
fn edits_of_a_crate_and_a_function_share_a_row() {
    let edits = [
        edit("a", "one", "code: `f`\nremark: twice\ncode: `g`\n"),
        edit("a", "two", "statement: `f`\n"),
        edit("a", "three", "code: `f`\n"),
        edit("b", "one", "code: `f`\n"),
    ];
    let code = "| crate | function | edits |
|---|---|---|
| `a` | `f` | `one` (twice), `three` |
| | `g` | `one` |
| `b` | `f` | `one` |
";
    assert_eq!(by_subject(&edits, Kind::Code), code);
    let statements = "| crate | function | edits |
|---|---|---|
| `a` | `f` | `two` |
";
    assert_eq!(by_subject(&edits, Kind::Statement), statements);
}

#[test]
fn a_definition_has_what_no_longer_holds() {
    let edits = [edit("model", "one", "definition: `f`\nfact: f is one\n")];
    let table = "| edit | definition | what no longer holds |
|---|---|---|
| `one` | `f` | f is one |
";
    assert_eq!(definitions(&edits), table);
}

#[test]
fn each_desk_and_turn_of_document_01_needs_an_edit() {
    let notes = |turn: &str, fact: &str| format!("code: f\nturn: {turn}\nfact: {fact}\n");
    let edits = [
        edit("a", "two", &notes(TURNS[1], "so")),
        edit("b", "one", &notes(TURNS[0], "it is")),
        edit("b", "two", &notes(TURNS[1], "so")),
        edit("c", "two", &notes(TURNS[1], "too")),
    ];
    let turns = |names: &[&str]| named(&edits, "turn", names, |notes| &notes.turn);
    let rows = format!(
        "| {} | `b/one` | it is |\n| {} | `a/two`, `b/two`, `c/two` | so; too |\n",
        TURNS[0], TURNS[1]
    );
    let head = "| turn | edit | the fact that refuses it |\n|---|---|---|\n";
    assert_eq!(turns(&TURNS[..2]), Ok(format!("{head}{rows}")));
    assert!(turns(&TURNS).is_err());
    assert!(named(&edits, "desk", &DESKS, |notes| &notes.desk).is_err());
}

#[test]
fn a_table_takes_the_place_between_its_marks() {
    let page = |table: &str| {
        let beginning = beginning("wrong code");
        format!("Before.\n\n{beginning}{table}<!-- end of the table -->\n\nAfter.\n")
    };
    let wanted = page("\n| a |\n\n");
    for before in ["", "\n| b |\n| c |\n\n", "\n| a |\n\n"] {
        let found = filled(&page(before), "wrong code", "| a |\n");
        assert_eq!(found.as_ref(), Some(&wanted));
    }
    assert_eq!(filled(&wanted, "wrong turns", ""), None);
    assert_eq!(filled(&beginning("wrong code"), "wrong code", ""), None);
}
