//! What the cases of `try_plan` are made for, and its expected output.

use cases::plan::pairs;
use cases::program::{self, committed_text};
use reference::deliver;
use reference::game::{check_game, Player};
use reference::plan::check_plan;
use std::collections::BTreeSet;

fn refusal(game: &[u8], plan: &[u8]) -> u8 {
    let answer = check_game(game).and_then(|game| check_plan(&game, plan).map(|_| ()));
    answer.err().unwrap_or(0)
}

fn committed(path: &str) -> Vec<u8> {
    program::committed("try_plan", &format!("data/{path}")).unwrap()
}

fn stdout() -> String {
    committed_text("try_plan", "stdout").unwrap()
}

#[test]
fn each_pair_of_neighbours_is_broken_at_once() {
    let pairs = pairs().unwrap();
    let lower: BTreeSet<u8> = pairs.iter().map(|pair| pair.both.refusal).collect();
    assert!(lower.into_iter().eq(13..=15));
    for pair in pairs {
        let (game, plan) = &pair.upper;
        assert_eq!(refusal(game, plan), pair.both.refusal + 1);
        assert_eq!(refusal(&pair.both.game, &pair.both.plan), pair.both.refusal);
    }
}

/// What the program does with its files, by the reference.
#[test]
fn the_expected_output_follows_from_the_data() {
    let checked = folders("cases")
        .iter()
        .map(|name| check_line(name))
        .collect();
    let rooms: String = folders("rooms")
        .iter()
        .map(|name| room_lines(name))
        .collect();
    assert_eq!([checked, rooms].concat(), stdout());
}

/// The folders whose two files a list names one after the other.
fn folders(list: &str) -> Vec<String> {
    let list = String::from_utf8(committed(list)).unwrap();
    let plans = list
        .lines()
        .filter_map(|line| line.strip_suffix("/plan.bin"));
    plans.map(String::from).collect()
}

fn check_line(name: &str) -> String {
    let answer = answer(name, &mut [7; 4_095], |[d1, d2, _]| {
        format!("plan of {d1} {d2}")
    });
    format!("{name}: {answer}\n")
}

fn room_lines(name: &str) -> String {
    let mut lines = format!("rooms of {name}\n");
    for room in 0..=12 {
        let mut buffer = vec![7; room];
        let answer = answer(name, &mut buffer, |[d1, d2, count]| {
            format!("plan of {d1} {d2} count {count}")
        });
        let weights: String = buffer.iter().map(|weight| format!(" {weight}")).collect();
        lines += &format!("room {room}: {answer} weights{weights}\n");
    }
    lines
}

fn answer(name: &str, buffer: &mut [u64], text: fn([u64; 3]) -> String) -> String {
    let [game, plan] = ["game", "plan"].map(|file| committed(&format!("{name}/{file}.bin")));
    match plan_fields(&game, &plan, buffer) {
        Ok(fields) => text(fields),
        Err(refusal) => format!("refusal {refusal}"),
    }
}

/// D1, D2 and the number of weights, with the weights in the buffer.
fn plan_fields(game: &[u8], plan: &[u8], buffer: &mut [u64]) -> Result<[u64; 3], u8> {
    let game = check_game(game)?;
    let plan = check_plan(&game, plan)?;
    let count = deliver(&plan.weights_in_file_order(), buffer)?;
    let [d1, d2] = Player::BOTH.map(|player| plan.denominator(player));
    Ok([d1, d2, count as u64])
}

/// The starred cases, as document 01 gives them.
#[test]
fn the_starred_files_have_document_01s_bytes() {
    let m = [
        0x10, 0x03, 0x00, 0x30, 0x00, 0x30, 0x00, 0x00, 0x10, 0x02, 0x00, 0x10, 0x02,
    ];
    assert_eq!(committed("00-study-game-m/plan.bin")[..], m);
    assert_eq!(committed("00-study-game-m/game.bin").len(), 80);
    assert_eq!(committed("00-one-leaf/game.bin").len(), 13);
    assert_eq!(
        committed("00-one-leaf/plan.bin")[..],
        [0x10, 0x01, 0x00, 0x10]
    );
}

/// Worked by hand: plans Q, M, F and the fourth one, and the buffers of plan M.
#[test]
fn the_expected_output_has_document_01s_answers() {
    let stdout = stdout();
    let lines: Vec<&str> = stdout.lines().collect();
    for line in [
        "00-study-game-q: plan of 1 1",
        "00-study-game-m: plan of 3 3",
        "00-study-game-f: plan of 1 2",
        "00-study-game-thirds: plan of 1 3",
        "00-one-leaf: plan of 1 1",
        "13-before-14: refusal 13",
        "14-one-byte-less: refusal 14",
        "15-before-16-by-d1: refusal 15",
        "16-modulo-4096: refusal 16",
        "16-moves-after-weight-0: refusal 16",
    ] {
        assert!(lines.contains(&line), "{line}");
    }
    let start = lines
        .iter()
        .position(|line| *line == "rooms of 00-study-game-m");
    let rooms = &lines[start.unwrap() + 1..];
    assert_eq!(rooms[0], "room 0: refusal 18 weights");
    assert_eq!(rooms[5], "room 5: refusal 18 weights 7 7 7 7 7");
    assert_eq!(rooms[6], "room 6: plan of 3 3 count 6 weights 3 0 1 2 1 2");
    assert_eq!(
        rooms[8],
        "room 8: plan of 3 3 count 6 weights 3 0 1 2 1 2 7 7"
    );
}
