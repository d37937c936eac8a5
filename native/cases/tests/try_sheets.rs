//! What the cases of `try_sheets` are made for, and its expected output.

use cases::program::{self, committed_text};
use cases::sheets::{pairs, plan_cases, sheet_cases, Case};
use reference::deliver;
use reference::limits::LARGEST;
use reference::sheet::{plan_from_sheet, sheet_from_plan, WIDTH};
use std::collections::BTreeSet;

fn committed(path: &str) -> Vec<u8> {
    program::committed("try_sheets", &format!("data/{path}")).unwrap()
}

fn stdout() -> String {
    committed_text("try_sheets", "stdout").unwrap()
}

fn lines_of(list: &str) -> Vec<String> {
    let list = committed_text("try_sheets", &format!("data/{list}")).unwrap();
    list.lines().map(String::from).collect()
}

#[test]
fn each_case_gets_the_refusal_that_it_is_made_for() {
    for case in sheet_cases().unwrap().iter().chain(&plan_cases().unwrap()) {
        let refusal = case.answer().err().unwrap_or(0);
        assert_eq!(refusal, case.refusal, "{}", case.name());
    }
}

#[test]
fn each_refusal_of_a_call_has_a_case_and_no_name_stands_twice() {
    let (sheets, plans) = (sheet_cases().unwrap(), plan_cases().unwrap());
    let refusals = |cases: &[Case]| -> BTreeSet<u8> {
        let refusals = cases.iter().map(|case| case.refusal);
        refusals.collect()
    };
    assert!(refusals(&sheets).into_iter().eq((0..=13).chain(19..=21)));
    assert!(refusals(&plans).into_iter().eq(0..=16));
    let names: BTreeSet<String> = sheets.iter().chain(&plans).map(Case::name).collect();
    assert_eq!(names.len(), sheets.len() + plans.len());
}

#[test]
fn each_pair_of_neighbours_is_broken_at_once() {
    let pairs = pairs().unwrap();
    let lower: BTreeSet<u8> = pairs.iter().map(|pair| pair.both.refusal).collect();
    assert!(lower.into_iter().eq([13, 19, 20]));
    for pair in pairs {
        let (game, sheet) = &pair.upper;
        let upper = plan_from_sheet(game, sheet, WIDTH, LARGEST).unwrap_err();
        let next = match pair.both.refusal {
            13 => 19,
            refusal => refusal + 1,
        };
        assert_eq!(upper, next, "{}", pair.both.name());
    }
}

/// Every folder's two files stand in its list one after the other.
#[test]
fn the_lists_name_every_case() {
    for (list, cases) in [("sheets", sheet_cases()), ("plans", plan_cases())] {
        let cases = cases.unwrap();
        let paths = cases.iter().flat_map(Case::paths);
        assert!(lines_of(list).into_iter().eq(paths), "{list}");
    }
}

/// What the program does with its files, by the reference.
#[test]
fn the_expected_output_follows_from_the_data() {
    let mut lines = String::new();
    for list in ["sheets", "plans"] {
        for paths in lines_of(list).chunks(2) {
            lines += &check_line(paths);
        }
    }
    for list in ["sheet_rooms", "plan_rooms"] {
        for paths in lines_of(list).chunks(2) {
            lines += &room_lines(paths);
        }
    }
    assert_eq!(lines, stdout());
}

fn name_of(paths: &[String]) -> &str {
    paths[0].strip_suffix("/game.bin").unwrap()
}

/// What the call gives for two files, the second of which is a sheet or a plan by its name.
fn made(paths: &[String]) -> Result<Vec<u8>, u8> {
    let [game, given] = [committed(&paths[0]), committed(&paths[1])];
    match &paths[1][name_of(paths).len()..] {
        "/sheet.bin" => plan_from_sheet(&game, &given, WIDTH, LARGEST),
        "/plan.bin" => sheet_from_plan(&game, &given, WIDTH),
        other => panic!("{other}"),
    }
}

fn hex(bytes: &[u8]) -> String {
    bytes.iter().map(|byte| format!(" {byte:02x}")).collect()
}

fn check_line(paths: &[String]) -> String {
    let answer = match made(paths) {
        Ok(file) if file.len() <= 40 => format!("written {} buffer{}", file.len(), hex(&file)),
        Ok(file) => {
            let take_in = |check: u64, &byte: &u8| (31 * check + u64::from(byte)) % 65_521;
            let check = file.iter().fold(0, take_in);
            format!("written {} check {check}", file.len())
        }
        Err(refusal) => format!("refusal {refusal}"),
    };
    format!("{}: {answer}\n", name_of(paths))
}

fn room_lines(paths: &[String]) -> String {
    let mut lines = format!("rooms of {}\n", name_of(paths));
    for room in 0..=14 {
        let mut buffer = vec![0xa5; room];
        let answer = match made(paths).and_then(|file| deliver(&file, &mut buffer)) {
            Ok(size) => format!("written {size}"),
            Err(refusal) => format!("refusal {refusal}"),
        };
        lines += &format!("room {room}: {answer} buffer{}\n", hex(&buffer));
    }
    lines
}

/// Worked by hand, with the odds L R S T l r of each sheet of the study game in its comment.
#[test]
fn the_expected_output_has_the_plans_worked_by_hand() {
    let stdout = stdout();
    let lines: Vec<&str> = stdout.lines().collect();
    for line in [
        // 1 0 1 2 1 2: D1 = D2 = 3.
        "00-sheet-of-plan-m: written 13 buffer 10 03 00 30 00 30 00 00 10 02 00 10 02",
        // 1 2 1 4 3 6: 5 10 1 4 of 15, 1 2 of 3.
        "00-sheet-of-d1-15-and-d2-3: written 13 buffer 10 0f 00 30 00 50 0a 00 10 04 00 10 02",
        // 2 2 2 1 1 0: 3 3 2 1 of 6.
        "00-sheet-common-factor-in-a-set: written 13 buffer 10 06 00 10 00 30 03 00 20 01 00 10 00",
        // 6 4 5 1 1 0: 6 4 5 1 of 10.
        "00-sheet-common-factor-across-sets: written 13 buffer 10 0a 00 10 00 60 04 00 50 01 00 10 00",
        // 0 7 5 8 4 0 and 0 7 0 0 4 0: R and l.
        "00-sheet-odds-never-arrived-at: written 13 buffer 10 01 00 10 00 00 01 00 00 00 00 10 00",
        "00-sheet-no-odds-never-arrived-at: written 13 buffer 10 01 00 10 00 00 01 00 00 00 00 10 00",
        // 1 4094 1 0 1 0.
        "00-sheet-d1-4095: written 13 buffer 1f ff 00 10 00 1f fe 00 10 00 00 10 00",
        // 1 62 1 64 1 0: 65 4030 1 64 of 4095.
        "00-sheet-d1-63-times-65: written 13 buffer 1f ff 00 10 04 1f be 00 10 40 00 10 00",
        // 4095 six times: 2 2 1 1 of 4, 1 1 of 2.
        "00-sheet-largest-odds: written 13 buffer 10 04 00 20 00 20 02 00 10 01 00 10 01",
        // 1 2 at set 0, which follows move 0 of set 1 with 1 1: 1 2 3 3 of 6.
        "00-sheet-set-after-a-later-one: written 10 buffer 10 06 00 10 00 10 02 00 30 03",
        // 5 4 3 1 3 3 of 12 and 2 3 5 2 of 7.
        "00-sheet-sets-not-in-tree-order: written 19 buffer 10 0c 00 70 00 50 04 00 30 01 00 30 03 00 20 03 00 50 02",
        "00-sheet-one-leaf: written 4 buffer 10 01 00 10",
        "00-sheet-one-move: written 6 buffer 10 01 00 10 00 10",
        "00-sheet-three-moves: written 9 buffer 10 04 00 10 00 10 01 00 20",
        // 1 1 at each of 11 sets: 1024 twice, 512 twice and on, of 2048.
        "00-sheet-11-sets-in-a-row: written 37 buffer 18 00 00 10 40 04 00 20 02 00 10 01 00 08 00 80 04 00 40 02 00 20 01 00 10 00 80 08 00 40 04 00 20 02 00 10 01",
        "20-sheet-late-set: refusal 20",
        "21-sheet-d1-4096: refusal 21",
        "21-sheet-255-sets-in-a-row: refusal 21",
        "13-sheet-before-19: refusal 13",
        "19-sheet-before-20: refusal 19",
        "20-sheet-before-21-of-player-1: refusal 20",
        "20-sheet-before-21-of-player-2: refusal 20",
        // 1 0 1 2 1 2, also where D1 or D2 is a multiple.
        "00-plan-study-game-m: written 9 buffer 00 10 00 00 10 02 00 10 02",
        "00-plan-study-game-4095: written 9 buffer 00 10 00 00 10 02 00 10 02",
        "00-plan-d2-twice: written 9 buffer 00 10 00 00 10 02 00 10 02",
        "00-plan-d1-twice-d2-three-times: written 9 buffer 00 10 00 00 10 02 00 10 02",
        // 0 1 0 0 1 1.
        "00-plan-study-game-f: written 9 buffer 00 00 01 00 00 00 00 10 01",
        // 4 6 4 0 of 10 and 2 3 of 5: 2 3 1 0 2 3.
        "00-plan-divisor-of-one-set: written 9 buffer 00 20 03 00 10 00 00 20 03",
        "00-plan-one-leaf: written 0 buffer",
        "00-plan-two-moves: written 3 buffer ff e0 01",
        "14-plan-one-byte-less: refusal 14",
        "15-plan-before-16-by-d1: refusal 15",
    ] {
        assert!(lines.contains(&line), "{line}");
    }
}

/// Buffers one byte short, exact and longer; 21 and 16 where the buffer is too short too.
#[test]
fn the_expected_output_has_the_rooms_worked_by_hand() {
    let stdout = stdout();
    let rooms = |name: &str| -> Vec<&str> {
        let heading = format!("rooms of {name}");
        let lines = stdout.lines().skip_while(move |line| *line != heading);
        lines.skip(1).take(15).collect()
    };
    let plan = rooms("00-sheet-of-plan-m");
    assert_eq!(plan[0], "room 0: refusal 18 buffer");
    assert_eq!(
        plan[12],
        "room 12: refusal 18 buffer a5 a5 a5 a5 a5 a5 a5 a5 a5 a5 a5 a5"
    );
    assert_eq!(
        plan[13],
        "room 13: written 13 buffer 10 03 00 30 00 30 00 00 10 02 00 10 02"
    );
    assert_eq!(
        plan[14],
        "room 14: written 13 buffer 10 03 00 30 00 30 00 00 10 02 00 10 02 a5"
    );
    let sheet = rooms("00-plan-study-game-m");
    assert_eq!(
        sheet[8],
        "room 8: refusal 18 buffer a5 a5 a5 a5 a5 a5 a5 a5"
    );
    assert_eq!(
        sheet[9],
        "room 9: written 9 buffer 00 10 00 00 10 02 00 10 02"
    );
    assert_eq!(
        sheet[10],
        "room 10: written 9 buffer 00 10 00 00 10 02 00 10 02 a5"
    );
    assert_eq!(
        rooms("21-sheet-d1-4096")[3],
        "room 3: refusal 21 buffer a5 a5 a5"
    );
    assert_eq!(
        rooms("20-sheet-before-21-of-player-1")[2],
        "room 2: refusal 20 buffer a5 a5"
    );
    assert_eq!(
        rooms("16-plan-moves-after-weight-0")[1],
        "room 1: refusal 16 buffer a5"
    );
    assert_eq!(rooms("00-plan-one-leaf")[0], "room 0: written 0 buffer");
}
