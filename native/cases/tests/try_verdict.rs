//! What the cases of `try_verdict` are made for, and lines of its expected output.

use cases::program::committed_text;
use cases::verdict::all_cases;
use reference::brute;
use reference::game::check_game;
use reference::plan::check_plan;
use reference::verdict::verdict;

/// Small cases by every pure strategy.
#[test]
fn the_verdicts_are_those_of_brute_force() {
    let mut tried = 0;
    for case in all_cases().unwrap() {
        let Ok(game) = check_game(&case.game) else {
            continue;
        };
        let Ok(plan) = check_plan(&game, &case.plan) else {
            continue;
        };
        if let Some(wanted) = brute::verdict(&plan, 512) {
            assert_eq!(verdict(&plan), wanted, "{}", case.name());
            tried += 1;
        }
    }
    assert!(tried > 35, "{tried}");
}

/// Worked by hand.
const WORKED: [&str; 24] = [
    "00-study-game-q: accepted over 1",
    "00-study-game-m: accepted over 9",
    "00-study-game-f: player 1 gain 1 over 2 moves 0 0",
    "00-study-game-thirds: accepted over 3",
    "00-one-leaf: accepted over 7",
    "00-only-player-2-gains: player 2 gain 3 over 2 moves 1",
    "00-both-gain-player-2-more: player 1 gain 1 over 2 moves 1",
    "00-tie-of-the-worthiest: player 1 gain 2 over 2 moves 1",
    "00-tie-below-zero: player 1 gain 2 over 2 moves 1",
    "00-barred-by-the-other: player 1 gain 4 over 1 moves 0 1",
    "00-barred-by-his-own-plan: player 1 gain 2 over 1 moves 2 1",
    "00-gain-behind-his-own-plan: player 1 gain 4 over 1 moves 1 1",
    "00-set-of-two-nodes: player 1 gain 4 over 6 moves 1",
    "00-no-gain-at-minus-1: accepted over 2",
    "00-no-gain-at-0: accepted over 2",
    "00-no-gain-at-1: accepted over 2",
    "00-gain-of-1-to-minus-1: player 1 gain 1 over 2 moves 1",
    "00-gain-of-1-to-0: player 1 gain 1 over 2 moves 1",
    "00-gain-of-1-to-1: player 1 gain 1 over 2 moves 1",
    "00-gain-of-1-of-4095: player 1 gain 1 over 8190 moves 0",
    // (32,767 + 32,768) × 4,095 × 4,095 × 4,095.
    "00-largest-gain-of-player-1: player 1 gain 4500233228570625 over 68669157375 moves 1",
    "00-largest-gain-of-player-2: player 2 gain 4500233228570625 over 68669157375 moves 1",
    "00-kuhn-poker: accepted over 216",
    "16-moves-after-weight-0: refusal 16",
];

fn stdout() -> String {
    committed_text("try_verdict", "stdout").unwrap()
}

#[test]
fn the_expected_output_has_these_lines() {
    let stdout = stdout();
    for worked in WORKED {
        assert!(stdout.lines().any(|line| line == worked), "{worked}");
    }
}

/// The lines after the heading of a case's rooms.
fn rooms<'a>(stdout: &'a str, name: &str) -> Vec<&'a str> {
    let heading = format!("rooms of {name}\n");
    let (_, rooms) = stdout.split_once(&heading).unwrap();
    rooms.lines().collect()
}

#[test]
fn the_rooms_hold_the_strategy_or_what_they_held() {
    let stdout = stdout();
    let accepted = rooms(&stdout, "00-study-game-m");
    assert_eq!(accepted[0], "room 0: accepted over 9 moves");
    let shown = rooms(&stdout, "00-study-game-f");
    assert_eq!(shown[1], "room 1: refusal 18 moves 7");
    assert_eq!(shown[2], "room 2: player 1 gain 1 over 2 moves 0 0");
    assert_eq!(shown[4], "room 4: player 1 gain 1 over 2 moves 0 0 7 7");
}
