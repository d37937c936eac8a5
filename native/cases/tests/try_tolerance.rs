//! What the cases of `try_tolerance` are made for, and its expected output.

use cases::plan::Case;
use cases::program::{committed, committed_text};
use cases::tolerance::all_cases;
use reference::brute;
use reference::game::check_game;
use reference::plan::check_plan;
use reference::tolerance::passes;
use reference::Refusal;

/// Pairs with more pure strategies for a player are not tried by brute force.
const LIMIT: usize = 512;

fn stdout() -> String {
    committed_text("try_tolerance", "stdout").unwrap()
}

/// The tolerances that the program reads for a case.
fn tolerances(name: &str) -> Vec<u16> {
    let path = format!("data/{name}/tolerances.bin");
    let bytes = committed("try_tolerance", &path).unwrap();
    let (twos, rest) = bytes.as_chunks();
    assert!(rest.is_empty(), "{name}");
    twos.iter().map(|&two| u16::from_be_bytes(two)).collect()
}

/// The answer for a pair by every pure strategy where these are few, else by the best response.
fn answer(case: &Case, tolerance: u16, by_force: &mut usize) -> Result<bool, Refusal> {
    let game = check_game(&case.game)?;
    let plan = check_plan(&game, &case.plan)?;
    let tried = brute::passes(&plan, tolerance, LIMIT);
    *by_force += usize::from(tried.is_some());
    Ok(tried.unwrap_or_else(|| passes(&plan, tolerance)))
}

/// What the program does with its files.
#[test]
fn the_expected_output_follows_from_the_data() {
    let (mut lines, mut by_force) = (String::new(), 0);
    for case in all_cases().unwrap() {
        let name = case.name();
        for tolerance in tolerances(&name) {
            let answer = match answer(&case, tolerance, &mut by_force) {
                Ok(true) => "yes".to_string(),
                Ok(false) => "no".to_string(),
                Err(refusal) => format!("refusal {refusal}"),
            };
            lines += &format!("{name} at {tolerance}: {answer}\n");
        }
    }
    assert_eq!(lines, stdout());
    assert!(by_force > 200, "{by_force}");
}

/// 0 and 65,535 are tried on every pair, and no tolerance twice.
#[test]
fn the_tolerances_rise_from_0_to_the_largest() {
    for case in all_cases().unwrap() {
        let tried = tolerances(&case.name());
        assert!(tried.is_sorted_by(|one, next| one < next));
        assert_eq!([tried[0], tried[tried.len() - 1]], [0, 65_535]);
        assert!(case.refusal == 0 || tried.len() == 2);
    }
}

/// Pairs that pass nowhere, from some tolerance on, or everywhere: the tolerances at which each
/// fails, and those at which it passes. Worked by hand: a gain in thousandths, rounded up, is the
/// first that passes. Where both gain the larger one decides.
const WORKED: [(&str, &[u16], &[u16]); 54] = [
    ("study-game-q", &[], &[0, 65_535]),
    ("study-game-m", &[], &[0, 65_535]),
    // 1 of 2.
    ("study-game-f", &[0, 499], &[500, 501, 65_535]),
    ("study-game-f-4095", &[0, 499], &[500, 501, 65_535]),
    ("study-game-thirds", &[], &[0, 65_535]),
    ("study-game-4095", &[], &[0, 65_535]),
    // 9 of 27.
    ("study-game-pair-a", &[0, 333], &[334, 335, 65_535]),
    // 3 and 12 of 27.
    (
        "study-game-pair-b",
        &[0, 111, 112, 113, 444],
        &[445, 446, 65_535],
    ),
    // 18 of 27.
    ("study-game-pair-c", &[0, 666], &[667, 668, 65_535]),
    ("one-leaf", &[], &[0, 65_535]),
    ("neither-gains", &[], &[0, 65_535]),
    ("only-player-1-gains", &[0, 499], &[500, 501, 65_535]),
    ("only-player-2-gains", &[0, 1_499], &[1_500, 1_501, 65_535]),
    // 1 of 2 and 5 of 2.
    (
        "both-gain-player-2-more",
        &[0, 499, 500, 501, 2_499],
        &[2_500, 2_501, 65_535],
    ),
    (
        "both-gain-player-1-more",
        &[0, 499, 500, 501, 2_499],
        &[2_500, 2_501, 65_535],
    ),
    // A third, and 669 of 2,000.
    (
        "player-2-gains-a-little-more",
        &[0, 333, 334],
        &[335, 336, 65_535],
    ),
    // -1 instead of (-4 - 1 - 6) / 3.
    (
        "player-1-without-sets",
        &[0, 2_666],
        &[2_667, 2_668, 65_535],
    ),
    // 2 instead of (0 + 1 + 2 × 2) / 4.
    ("player-2-without-sets", &[0, 749], &[750, 751, 65_535]),
    ("tie-at-zero", &[0, 499], &[500, 501, 65_535]),
    ("barred-by-the-other", &[0, 3_999], &[4_000, 4_001, 65_535]),
    // 4 of 6.
    ("set-of-two-nodes", &[0, 666], &[667, 668, 65_535]),
    ("no-gain-at-minus-1", &[], &[0, 65_535]),
    ("no-gain-at-0", &[], &[0, 65_535]),
    ("no-gain-at-1", &[], &[0, 65_535]),
    ("gain-of-1-to-0", &[0, 499], &[500, 501, 65_535]),
    ("gain-of-1-of-player-2-to-0", &[0, 499], &[500, 501, 65_535]),
    ("no-gain-of-4095", &[], &[0, 65_535]),
    // 1 of 8,190.
    ("gain-of-1-of-4095", &[0], &[1, 2, 65_535]),
    ("gain-of-1-of-9000", &[0], &[1, 2, 65_535]),
    ("gain-of-1-of-9000-by-player-2", &[0], &[1, 2, 65_535]),
    ("smallest-gain", &[0], &[1, 2, 65_535]),
    ("gain-of-1-of-1001", &[0], &[1, 2, 65_535]),
    ("gain-of-1-of-1000", &[0], &[1, 2, 65_535]),
    ("gain-of-1-of-999", &[0, 1], &[2, 3, 65_535]),
    ("gain-of-3-of-4000", &[0], &[1, 2, 65_535]),
    ("gain-of-4-of-4000", &[0], &[1, 2, 65_535]),
    ("gain-of-5-of-4000", &[0, 1], &[2, 3, 65_535]),
    ("gain-of-1-of-8", &[0, 124], &[125, 126, 65_535]),
    ("gain-of-4094-of-4095", &[0, 999], &[1_000, 1_001, 65_535]),
    ("gain-of-1-of-1", &[0, 999], &[1_000, 1_001, 65_535]),
    ("gain-of-4096-of-4095", &[0, 1_000], &[1_001, 1_002, 65_535]),
    // 17,891 × 15 = 268,365 and 19,169 × 14 = 268,366 of 4,095, where 65.535 would be 268,365.8.
    ("gain-just-below-65535-thousandths", &[0, 65_534], &[65_535]),
    ("gain-just-above-65535-thousandths", &[0, 65_535], &[]),
    ("gain-of-65535-thousandths", &[0, 65_534], &[65_535]),
    (
        "gain-of-65535-thousandths-by-player-2",
        &[0, 65_534],
        &[65_535],
    ),
    ("gain-of-65536-thousandths", &[0, 65_535], &[]),
    ("gain-of-65535-points", &[0, 65_535], &[]),
    ("largest-gain-of-player-1", &[0, 65_535], &[]),
    ("largest-gain-of-player-2", &[0, 65_535], &[]),
    ("kuhn-poker", &[], &[0, 65_535]),
    ("kuhn-poker-4095", &[], &[0, 65_535]),
    // 9 and 3 of 216.
    (
        "kuhn-poker-one-unit-off",
        &[0, 13, 14, 15, 41],
        &[42, 43, 65_535],
    ),
    // One move a set.
    ("most-sets", &[], &[0, 65_535]),
    ("path-of-255-moves", &[], &[0, 65_535]),
];

#[test]
fn the_worked_pairs_have_these_lines_and_no_others() {
    let stdout = stdout();
    for (title, fails, passes) in WORKED {
        let beginning = format!("00-{title} at ");
        let lines = stdout.lines();
        let lines = lines.filter_map(|line| line.strip_prefix(&beginning));
        let fails = fails.iter().map(|tolerance| format!("{tolerance}: no"));
        let passes = passes.iter().map(|tolerance| format!("{tolerance}: yes"));
        assert!(lines.eq(fails.chain(passes)), "{title}");
    }
}

#[test]
fn each_refused_pair_has_its_lines() {
    let stdout = stdout();
    for case in all_cases().unwrap() {
        let (name, refusal) = (case.name(), case.refusal);
        let lines = format!("{name} at 0: refusal {refusal}\n{name} at 65535: refusal {refusal}\n");
        assert_eq!(stdout.contains(&lines), refusal > 0, "{name}");
    }
}

/// By the expected output of `try_verdict`, which has many of the pairs too.
#[test]
fn tolerance_0_is_the_verdict() {
    let verdicts = committed_text("try_verdict", "stdout").unwrap();
    let (judged, _) = verdicts.split_once("rooms of ").unwrap();
    let stdout = stdout();
    let mut shared = 0;
    for (name, verdict) in judged.lines().filter_map(|line| line.split_once(": ")) {
        let answer = match verdict {
            refused if refused.starts_with("refusal ") => refused,
            accepted if accepted.starts_with("accepted ") => "yes",
            _ => "no",
        };
        let line = format!("{name} at 0: {answer}");
        assert!(stdout.lines().any(|given| given == line), "{line}");
        shared += 1;
    }
    assert!(shared > 50, "{shared}");
}
