//! What the cases of `try_game` are made for, and lines of its expected output.

use cases::game::{all_cases, pairs};
use cases::program;
use reference::game::check_game;
use std::collections::BTreeSet;

fn refusal(file: &[u8]) -> u8 {
    check_game(file).err().unwrap_or(0)
}

fn committed(path: &str) -> Vec<u8> {
    program::committed("try_game", path).unwrap()
}

#[test]
fn each_file_gets_the_refusal_that_it_is_made_for() {
    for case in all_cases().unwrap() {
        assert_eq!(refusal(&case.file), case.refusal, "{}", case.name());
    }
}

#[test]
fn each_refusal_has_a_file_and_no_name_stands_twice() {
    let cases = all_cases().unwrap();
    let refusals: BTreeSet<u8> = cases.iter().map(|case| case.refusal).collect();
    assert!(refusals.into_iter().eq(0..=13));
    let names: BTreeSet<String> = cases.iter().map(|case| case.name()).collect();
    assert_eq!(names.len(), cases.len());
}

#[test]
fn each_pair_of_neighbours_is_broken_at_once() {
    let pairs = pairs().unwrap();
    assert!(pairs.iter().map(|pair| pair.both.refusal).eq(1..=12));
    for pair in pairs {
        assert_eq!(refusal(&pair.upper), pair.both.refusal + 1);
        assert_eq!(refusal(&pair.both.file), pair.both.refusal);
    }
}

/// The starred cases, as document 01 gives them.
#[test]
fn the_starred_files_have_document_01s_bytes() {
    let study = committed("data/00-study-game");
    assert_eq!(study.len(), 80);
    assert_eq!(study[..5], [0x10, 0x09, 0x00, 0x30, 0x01]);
    assert_eq!(study[5..8], [0x02, 0x82, 0x02]);
    let node_2 = [0x00, 0x00, 0x10, 0x01, 0x00, 0x03, 0x00, 0x03];
    let node_8 = [0x00, 0x10, 0x10, 0x01, 0x00, 0x06, 0x00, 0x01];
    assert_eq!(study[24..32], node_2);
    assert_eq!(study[72..80], node_8);
    let leaf = committed("data/00-one-leaf");
    assert_eq!(leaf.len(), 13);
    assert_eq!(leaf[..5], [0x10, 0x01, 0x00, 0x00, 0x07]);
    let forgetful = committed("data/13-set-below-itself");
    let root = [0x40, 0x00, 0x00, 0x01, 0x00, 0x00, 0x00, 0x00];
    let below = [0x40, 0x00, 0x00, 0x01, 0x00, 0x00, 0x00, 0x00];
    let end = [0x00, 0x04, 0x00, 0x01, 0x00, 0x00, 0x00, 0x00];
    let header = [0x10, 0x03, 0x00, 0x10, 0x01, 0x01];
    assert_eq!(forgetful, [&header[..], &root, &below, &end].concat());
}

/// Worked by hand from document 01: the starred cases' answers, the look-ups in its
/// game, and all fields of it and of a game without sets.
#[test]
fn the_expected_output_has_document_01s_answers() {
    let stdout = String::from_utf8(committed("stdout")).unwrap();
    let lines: Vec<&str> = stdout.lines().collect();
    for line in [
        "00-study-game: accepted 9 3 1",
        "00-one-leaf: accepted 1 0 7",
        "13-set-below-itself: refusal 13",
    ] {
        assert!(lines.contains(&line), "{line}");
    }
    let study = format!("look-ups in 00-study-game\n{STUDY_LOOK_UPS}look-ups in ");
    assert!(stdout.contains(&study));
    for line in FIELDS {
        assert!(lines.contains(&line), "{line}");
    }
}

const FIELDS: [&str; 4] = [
    "fields: given 9 3 1 set-players 0 1 0 7 set-moves 2 2 2 7 \
     kinds 1 1 0 1 1 0 0 0 0 7 parents 0 0 0 1 1 3 3 4 4 7 moves 0 0 1 0 1 0 1 0 1 7 \
     weights 1 1 1 1 1 1 1 1 1 7 node-sets 0 1 0 2 2 0 0 0 0 7 \
     chance-moves 0 0 0 0 0 0 0 0 0 7 payoffs1 0 0 3 0 0 2 0 5 6 7 payoffs2 0 0 3 0 0 2 3 6 1 7",
    "fields: refusal 18 set-players 7 7 7 7 set-moves 7 7 7 7 \
     kinds 7 7 7 7 7 7 7 7 7 7 parents 7 7 7 7 7 7 7 7 7 7 moves 7 7 7 7 7 7 7 7 7 7 \
     weights 7 7 7 7 7 7 7 7 7 7 node-sets 7 7 7 7 7 7 7 7 7 7 \
     chance-moves 7 7 7 7 7 7 7 7 7 7 payoffs1 7 7 7 7 7 7 7 7 7 7 payoffs2 7 7 7 7 7 7 7 7",
    "fields: given 5 0 7 set-players 7 7 7 7 set-moves 7 7 7 7 \
     kinds 2 2 0 0 0 7 7 7 7 7 parents 0 0 1 0 1 7 7 7 7 7 moves 0 1 1 0 0 7 7 7 7 7 \
     weights 7 6 1 1 5 7 7 7 7 7 node-sets 0 0 0 0 0 7 7 7 7 7 \
     chance-moves 2 2 0 0 0 7 7 7 7 7 payoffs1 0 0 0 -32768 32767 7 7 7 7 7 \
     payoffs2 0 0 -1 32767 -32768 7 7 7 7 7",
    "fields: given 5 0 7 set-players 7 7 7 7 set-moves 7 7 7 7 \
     kinds 2 2 0 0 0 7 7 7 7 7 parents 0 0 1 0 1 7 7 7 7 7 moves 0 1 1 0 0 7 7 7 7 7 \
     weights 7 6 1 1 5 7 7 7 7 7 node-sets 0 0 0 0 0 7 7 7 7 7 \
     chance-moves 2 2 0 0 0 7 7 7 7 7 payoffs1 0 0 0 -32768 32767 7 7 7 7 7 \
     payoffs2 0 0 -1 32767 -32768 7 7 7",
];

const STUDY_LOOK_UPS: &str = "set 0: player bit 0 moves 2
set 0: own sequence 0
set 1: player bit 1 moves 2
set 1: own sequence 0
set 2: player bit 0 moves 2
set 2: own sequence 1
set 3: refusal 17
set 3: refusal 17
set 18446744073709551615: refusal 17
set 18446744073709551615: refusal 17
node 0: decision parent 0 move 0 weight 1 set 0
node 1: decision parent 0 move 0 weight 1 set 1
node 2: leaf parent 0 move 1 weight 1 payoffs 3 3
node 3: decision parent 1 move 0 weight 1 set 2
node 4: decision parent 1 move 1 weight 1 set 2
node 5: leaf parent 3 move 0 weight 1 payoffs 2 2
node 6: leaf parent 3 move 1 weight 1 payoffs 0 3
node 7: leaf parent 4 move 0 weight 1 payoffs 5 6
node 8: leaf parent 4 move 1 weight 1 payoffs 6 1
node 9: refusal 17
node 18446744073709551615: refusal 17
";
