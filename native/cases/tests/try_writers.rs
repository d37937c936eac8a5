//! What the cases of `try_writers` are made for, and lines of its expected output.

use cases::program::{committed, committed_text};
use cases::writers::{game_cases, plan_cases, Case};
use reference::writer::{write_game, write_plan, Fields};
use std::collections::BTreeSet;

fn all_cases() -> Vec<Case> {
    let mut cases = game_cases();
    cases.extend(plan_cases());
    cases
}

fn stdout() -> String {
    committed_text("try_writers", "stdout").unwrap()
}

/// The words of a case's committed file.
fn words(name: &str) -> Vec<u64> {
    let bytes = committed("try_writers", &format!("data/{name}")).unwrap();
    let words = bytes.chunks(8);
    words
        .map(|word| u64::from_be_bytes(word.try_into().unwrap()))
        .collect()
}

#[test]
fn each_case_gets_the_refusal_that_it_is_made_for_and_keeps_its_buffer() {
    for case in all_cases() {
        let (answer, buffer) = case.answer();
        let name = case.name();
        assert_eq!(answer.err().unwrap_or(0), case.refusal, "{name}");
        let kept = match answer {
            Ok(length) => &buffer[length..],
            Err(_) => &buffer[..],
        };
        assert!(kept.iter().all(|&byte| byte == 0xa5), "{name}");
        assert!(buffer.len() <= 96, "{name}");
    }
}

#[test]
fn no_name_stands_twice() {
    let cases = all_cases();
    let names: BTreeSet<String> = cases.iter().map(Case::name).collect();
    assert_eq!(names.len(), cases.len());
}

#[test]
fn every_word_has_its_place() {
    for case in game_cases() {
        assert_eq!(words(&case.name()).len(), 2 + 10 * 17);
    }
    for case in plan_cases() {
        assert_eq!(words(&case.name()).len(), 3 + 17);
    }
    let study = words("00-study-game");
    let payoffs2 = 2 + 9 * 17;
    assert_eq!(study[..6], [80, 1, 3, 0, 1, 0]);
    assert_eq!(study[payoffs2], 9);
    assert_eq!(study[payoffs2 + 1 + 7], 6);
}

/// What the program does with its files, by the reference writers.
#[test]
fn the_expected_output_follows_from_the_data() {
    let lines = written_lines("games", write_a_game) + &written_lines("plans", write_a_plan);
    assert!(stdout().starts_with(&lines));
    assert_eq!(stdout()[lines.len()..].lines().count(), 8);
}

/// A line for each case of a list.
fn written_lines(list: &str, write: Write) -> String {
    let names = committed_text("try_writers", &format!("data/{list}")).unwrap();
    names
        .lines()
        .map(|name| written_line(name, write))
        .collect()
}

fn written_line(name: &str, write: Write) -> String {
    let words = words(name);
    let mut buffer = vec![0xa5; words[0] as usize];
    let answer = match write(&words, &mut buffer) {
        Ok(length) => format!("written {length}"),
        Err(refusal) => format!("refusal {refusal}"),
    };
    let bytes: String = buffer.iter().map(|byte| format!(" {byte:02x}")).collect();
    format!("{name}: {answer} buffer{bytes}\n")
}

type Write = fn(&[u64], &mut [u8]) -> Result<usize, u8>;

/// The list of a case whose number of entries is the word at a place.
fn list(words: &[u64], at: usize) -> Vec<u64> {
    words[at + 1..at + 1 + words[at] as usize].to_vec()
}

fn write_a_game(words: &[u64], buffer: &mut [u8]) -> Result<usize, u8> {
    let column = |number: usize| list(words, 2 + 17 * number);
    let signed = |number: usize| column(number).iter().map(|&word| word as i64).collect();
    let fields = Fields {
        players: column(0),
        set_moves: column(1),
        kinds: column(2),
        parents: column(3),
        moves: column(4),
        weights: column(5),
        sets: column(6),
        chance_moves: column(7),
        payoffs: [signed(8), signed(9)],
    };
    write_game(words[1], &fields, buffer)
}

fn write_a_plan(words: &[u64], buffer: &mut [u8]) -> Result<usize, u8> {
    write_plan(words[1], words[2], &list(words, 3), buffer)
}

/// The bytes that document 01 gives: of the game, its header, set entries and nodes 2
/// and 8; plan M whole.
#[test]
fn the_starred_files_have_document_01s_bytes() {
    let stdout = stdout();
    let game = stdout.lines().next().unwrap();
    let bytes: Vec<&str> = game.split(' ').skip(4).collect();
    assert!(game.starts_with("00-study-game: written 80 buffer 10 09 00 30 01 02 82 02 "));
    assert_eq!(bytes.len(), 80);
    assert_eq!(bytes[24..32].join(" "), "00 00 10 01 00 03 00 03");
    assert_eq!(bytes[72..80].join(" "), "00 10 10 01 00 06 00 01");
    let m = "00-plan-m: written 13 buffer 10 03 00 30 00 30 00 00 10 02 00 10 02";
    assert!(stdout.lines().any(|line| line == m));
}

/// Worked by hand from document 01's fields.
#[test]
fn the_expected_output_has_the_largest_numbers_and_the_limits() {
    let stdout = stdout();
    for line in [
        "00-no-entries: written 5 buffer 10 00 00 00 00",
        "00-no-game: written 14 buffer 10 01 00 10 00 80 40 1c 90 00 12 c0 00 00",
        "00-plan-of-one-move: written 6 buffer 10 09 00 20 00 90",
        "18-plan-m-no-room: refusal 18 buffer",
        "17-before-18-no-room: refusal 17 buffer",
        "4096 sets and 0 nodes: refusal 17 buffer a5 a5 a5 a5 a5 a5 a5 a5",
        "0 sets and 4095 nodes: written 32765 buffer 1f ff 00 00 01 00 00 00",
        "0 sets and 4096 nodes: refusal 17 buffer a5 a5 a5 a5 a5 a5 a5 a5",
        "5001 weights: written 7506 buffer 10 01 00 10 00 10 01 00",
    ] {
        assert!(stdout.lines().any(|other| other == line), "{line}");
    }
    let largest = "00-largest-numbers: written 55 buffer 10 06 00 2f ff ff ff \
                   bf ff ff ff fe 00 00 00 7f ff ff ff ff f0 00 00 3f ff ff ff 7f ff 80 00 ";
    assert!(stdout.contains(largest));
}
