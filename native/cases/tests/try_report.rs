//! The expected output of `try_report`.

use cases::program::committed_text;
use cases::report::all_cases;

fn stdout() -> String {
    committed_text("try_report", "stdout").unwrap()
}

/// What is expected for a case, without its heading.
fn listing(name: &str) -> String {
    let stdout = stdout();
    let heading = format!("== {name}\n");
    let (_, rest) = stdout.split_once(&heading).unwrap();
    let lines = rest.split_inclusive('\n');
    let ours = lines.take_while(|line| !line.starts_with("== ") && !line.starts_with("rooms of "));
    ours.collect()
}

#[test]
fn each_refused_pair_has_its_line() {
    let cases = all_cases().unwrap().into_iter();
    for case in cases.filter(|case| case.refusal > 0) {
        let line = format!("refusal {}\n", case.refusal);
        assert_eq!(listing(&case.name()), line, "{}", case.name());
    }
}

/// As document 02, W-202 prints it.
#[test]
fn plan_f_has_its_listing() {
    let wanted = "value 1 6 of 2
value 2 6 of 2
best 1 7 of 2
best 2 6 of 2
deviation player 1 gain 1 of 2
set 0 move 0
set 2 move 0
";
    assert_eq!(listing("00-study-game-f"), wanted);
}

/// Worked by hand: D0 × D1 × D2, and over it value 1, value 2, best 1 and best 2 of pairs that are
/// accepted. D1 × D2 is 28,665 where the name gives a value.
const ACCEPTED: [(&str, u64, [i64; 4]); 21] = [
    ("study-game-q", 1, [3, 3, 3, 3]),
    ("study-game-m", 9, [36, 24, 36, 24]),
    ("one-leaf", 7, [-7, 7, -7, 7]),
    ("value-0", 57_330, [0, 0, 0, 0]),
    (
        "value-minus-1-of-4095",
        117_383_175,
        [-28_665, 28_665, -28_665, 28_665],
    ),
    (
        "value-2-of-1000",
        28_665_000,
        [57_330, -57_330, 57_330, -57_330],
    ),
    (
        "value-1999-of-2000",
        57_330_000,
        [57_301_335, -57_301_335, 57_301_335, -57_301_335],
    ),
    (
        "value-4-of-3",
        85_995,
        [114_660, -114_660, 114_660, -114_660],
    ),
    (
        "value-12345678-of-1000",
        28_665_000,
        [
            353_888_859_870,
            -353_888_859_870,
            353_888_859_870,
            -353_888_859_870,
        ],
    ),
    ("count-minus-1", 9, [-1, 1, -1, 1]),
    ("count-9", 10, [9, -9, 9, -9]),
    ("count-10", 10, [10, -10, 10, -10]),
    ("count-99", 100, [99, -99, 99, -99]),
    ("count-100", 100, [100, -100, 100, -100]),
    (
        "count-1000000",
        1_000,
        [1_000_000, -1_000_000, 1_000_000, -1_000_000],
    ),
    (
        "count-1000001",
        1_000,
        [1_000_001, -1_000_001, 1_000_001, -1_000_001],
    ),
    ("minus-3-and-0", 1, [-3, 0, -3, 0]),
    ("0-and-minus-3", 1, [0, -3, 0, -3]),
    (
        "lowest-and-highest-payoff",
        7,
        [-229_376, 229_369, -229_376, 229_369],
    ),
    (
        "lowest-and-highest-payoff-of-4095",
        68_669_157_375,
        [
            -2_250_150_948_864_000,
            2_250_082_279_706_625,
            -2_250_150_948_864_000,
            2_250_082_279_706_625,
        ],
    ),
    ("kuhn-poker", 108, [-6, 6, -6, 6]),
];

/// The same of pairs that are not, with the deviation.
const DEVIATIONS: [(&str, u64, [i64; 4], &str); 8] = [
    (
        "gain-of-65535",
        1,
        [-32_768, 0, 32_767, 0],
        "deviation player 1 gain 65535 of 1\nset 0 move 1\n",
    ),
    (
        "gain-of-65535-by-player-2",
        68_669_157_375,
        [
            2_250_082_279_706_625,
            -2_250_150_948_864_000,
            2_250_082_279_706_625,
            2_250_082_279_706_625,
        ],
        "deviation player 2 gain 4500233228570625 of 68669157375\nset 1 move 1\n",
    ),
    (
        "gain-of-1-of-1000",
        1_000,
        [999, 0, 1_000, 0],
        "deviation player 1 gain 1 of 1000\nset 0 move 0\n",
    ),
    (
        "gain-of-1-of-9000",
        9_000,
        [2_999, 0, 3_000, 0],
        "deviation player 1 gain 1 of 9000\nset 0 move 0\n",
    ),
    (
        "gain-of-1-of-9000-by-player-2",
        9_000,
        [0, -6_001, 0, -6_000],
        "deviation player 2 gain 1 of 9000\nset 0 move 0\n",
    ),
    (
        "smallest-gain",
        68_669_157_375,
        [4_094, 0, 4_095, 0],
        "deviation player 1 gain 1 of 68669157375\nset 1 move 0\n",
    ),
    (
        "player-2-around-player-1",
        3,
        [0, -12, 0, 6],
        "deviation player 2 gain 18 of 3\nset 0 move 0\nset 2 move 1\n",
    ),
    (
        "both-gain-player-2-more",
        2,
        [0, 0, 1, 5],
        "deviation player 1 gain 1 of 2\nset 0 move 1\n",
    ),
];

fn check_listing(name: &str, base: u64, counts: [i64; 4], verdict: &str) {
    let headings = ["value 1", "value 2", "best 1", "best 2"];
    let lines = headings.iter().zip(counts);
    let lines: String = lines
        .map(|(of, count)| format!("{of} {count} of {base}\n"))
        .collect();
    assert_eq!(listing(&format!("00-{name}")), lines + verdict, "{name}");
}

#[test]
fn accepted_pairs_have_these_amounts() {
    for (name, base, counts) in ACCEPTED {
        check_listing(name, base, counts, "accepted\n");
    }
}

#[test]
fn deviations_have_these_amounts() {
    for (name, base, counts, deviation) in DEVIATIONS {
        check_listing(name, base, counts, deviation);
    }
}

/// 4,078 sets: 10, 90, 900 and 3,078 of 1 to 4 digits, each on a line of 12 characters beside
/// its number; one move has two digits. The base has 11 digits, the gain 16 and best 1, with its
/// sign, as many; the other amounts have 17.
#[test]
fn the_longest_listing_has_64356_bytes() {
    let lines = 4_078 * 12 + 10 + 90 * 2 + 900 * 3 + 3_078 * 4 + 1;
    let base = " of ".len() + 11 + "\n".len();
    let values = 2 * ("value 1 ".len() + 17 + base);
    let best = 2 * ("best 1 ".len() + base) + 16 + 17;
    let gain = "deviation player 1 gain ".len() + 16 + base;
    let longest = listing("00-longest-listing");
    assert_eq!(longest.len(), lines + values + best + gain);
    assert_eq!(longest.len(), 64_356);
    let gain = "gain 1563459375114000 of 68669157375\nset 0 move 16\nset 1 move 0\n";
    assert!(longest.contains(gain));
    assert!(longest.ends_with("set 4077 move 0\n"));
}

/// The check of a text and 7s after it, over again.
fn check(bytes: impl Iterator<Item = u8>) -> u32 {
    bytes.fold(0, |check, byte| (31 * check + u32::from(byte)) % 65_521)
}

#[test]
fn the_rooms_are_those_around_the_length_of_each_text() {
    let stdout = stdout();
    let (_, rooms) = stdout.split_once("rooms of 00-study-game-f\n").unwrap();
    let (of_f, rest) = rooms.split_once("rooms of 00-one-leaf\n").unwrap();
    let (of_leaf, _) = rest.split_once("line of ").unwrap();
    for (name, lines) in [("00-study-game-f", of_f), ("00-one-leaf", of_leaf)] {
        let text = listing(name);
        let length = text.len();
        let held = |room| check(vec![7; room].into_iter());
        let written = |past| check(text.bytes().chain(vec![7; past]));
        let wanted = [
            "room 0: refusal 18 check 0\n".to_string(),
            "room 1: refusal 18 check 7\n".to_string(),
            format!(
                "room {}: refusal 18 check {}\n",
                length - 1,
                held(length - 1)
            ),
            format!("room {length}: written {length} check {}\n", written(0)),
            format!(
                "room {}: written {length} check {}\n",
                length + 1,
                written(1)
            ),
        ];
        assert_eq!(lines, wanted.concat(), "{name}");
    }
}

#[test]
fn the_output_ends_with_the_refusal_lines() {
    let wanted = "line of 0: refusal 0
line of 1: refusal 1
line of 9: refusal 9
line of 10: refusal 10
line of 13: refusal 13
line of 18: refusal 18
line of 255: refusal 255
line of 18446744073709551615: refusal 18446744073709551615
";
    assert!(stdout().ends_with(wanted));
}
