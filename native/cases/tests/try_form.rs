//! What the cases of `try_form` are made for, and lines of its expected output.

use cases::form::all_cases;
use cases::program::committed_text;
use reference::form::{payoff_table, table_value_count, value_count};
use reference::game::{check_game, Player};
use reference::plan::check_plan;

/// Values by the leaves are those by the table, of which each kind is met.
#[test]
fn the_tables_give_the_values() {
    let (mut several, mut cancelled) = (0, 0);
    for case in all_cases().unwrap() {
        let Ok(game) = check_game(&case.game) else {
            continue;
        };
        let rows = payoff_table(&game);
        several += usize::from(rows.len() < game.leaves().len());
        cancelled += rows.iter().filter(|row| row.sums == [0, 0]).count();
        if let Ok(plan) = check_plan(&game, &case.plan) {
            for player in Player::BOTH {
                let value = value_count(&plan, player);
                assert_eq!(value, table_value_count(&plan, player));
            }
        }
    }
    assert!(several > 5 && cancelled > 5);
}

/// Worked by hand.
const WORKED: [&str; 24] = [
    "00-study-game-m: table of 5\n\
         row 2 0 sums 3 3\n\
         row 3 1 sums 2 2\n\
         row 3 2 sums 5 6\n\
         row 4 1 sums 0 3\n\
         row 4 2 sums 6 1\n\
         00-study-game-m as rows: table of 5 check ",
    "00-study-game-m: values 36 24 best 12 8 over 1 3 3\n",
    "00-study-game-q: values 3 3 best 3 3 over 1 1 1\n",
    "00-study-game-f: values 6 6 best 7 3 over 1 1 2\n",
    "00-study-game-thirds: values 9 9 best 9 3 over 1 1 3\n",
    "row 0 0 sums -7 7\n00-one-leaf as rows: table of 1 check ",
    "00-one-leaf: values -7 7 best -7 7 over 7 1 1\n",
    // 5 - 2 × 7 and -1 + 2 × 4; 9 × 1 and 9 × 2; 4 × 10 - 5 × 3 and -4 × 10 + 5 × 7.
    "00-several-leaves-on-a-pair: table of 3\n\
         row 0 0 sums -9 7\n\
         row 1 0 sums 9 18\n\
         row 2 0 sums 25 -5\n",
    // 2 - 2 × 1; 3 × 4 - 4 × 3 and the contrary; a leaf of 0 and 0 from each deal.
    "00-sums-that-cancel: table of 3\n\
         row 0 0 sums 0 7\n\
         row 0 1 sums 0 0\n\
         row 0 2 sums 0 0\n",
    // -32,768 × 4,095 × 4,095 × 4,095 and without the last factor.
    "00-lowest-payoffs: values -2250150948864000 -2250150948864000 \
         best -549487411200 -549487411200 over 4095 4095 4095\n",
    "00-highest-payoffs: values 2250082279706625 2250082279706625 \
         best 549470642175 549470642175 over 4095 4095 4095\n",
    "00-worths-rising-through-0: values -1 -1 best 1 0 over 2 1 1\n",
    "00-worths-falling-through-0: values 1 0 best 1 0 over 2 1 1\n",
    "00-all-worths-negative: values -5 -1 best -3 -1 over 2 1 1\n",
    // 9 behind sets 2, 1 and 0, times D2 = 2.
    "00-sets-falling: values 30 0 best 18 0 over 1 6 2\n",
    // The value is -1/18 of D0 × D1 × D2 = 216.
    "00-kuhn-poker: values -12 12 best -1 4 over 6 12 3\n",
    "16-moves-after-weight-0: refusal 16\n",
    "room 5 5 5 5: table of 5 sequence1 2 3 3 4 4 sequence2 0 1 2 1 2 \
         sum1 3 2 5 0 6 sum2 3 2 6 3 1\n",
    "room 4 8 8 8: refusal 18 sequence1 7 7 7 7 sequence2 7 7 7 7 7 7 7 7 \
         sum1 7 7 7 7 7 7 7 7 sum2 7 7 7 7 7 7 7 7\n",
    "rows 0: refusal 18\n",
    "rows 4: refusal 18; 7 7 7 7; 7 7 7 7; 7 7 7 7; 7 7 7 7\n",
    "rows 5: table of 5; 2 0 3 3; 3 1 2 2; 3 2 5 6; 4 1 0 3; 4 2 6 1\n",
    "rows 6: table of 5; 2 0 3 3; 3 1 2 2; 3 2 5 6; 4 1 0 3; 4 2 6 1; 7 7 7 7\n",
    "rows 2: refusal 13; 7 7 7 7; 7 7 7 7\n",
];

#[test]
fn the_expected_output_has_these_lines() {
    let stdout = committed_text("try_form", "stdout").unwrap();
    for lines in WORKED {
        assert!(stdout.contains(lines), "{lines}");
    }
}
