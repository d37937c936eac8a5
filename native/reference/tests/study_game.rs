//! The game to check against in document 01, with its plans.

use generator::edit::{node_field, put_bits, PAYOFF_1, PAYOFF_2};
use generator::named::{
    one_leaf, plan_f, plan_m, plan_q, plan_r_against_thirds, set_below_itself, study_game,
};
use generator::tables::PlanWeights;
use reference::deliver;
use reference::form::{best_response, payoff_table, table_value_count, value_count};
use reference::game::{check_game, Game, Move, Player};
use reference::plan::{check_plan, plan_length};
use reference::report::report;
use reference::verdict::{verdict, Deviation, Verdict};

const HEADER_AND_SETS: [u8; 8] = [0x10, 0x09, 0x00, 0x30, 0x01, 0x02, 0x82, 0x02];
const NODE_2: [u8; 8] = [0x00, 0x00, 0x10, 0x01, 0x00, 0x03, 0x00, 0x03];
const NODE_8: [u8; 8] = [0x00, 0x10, 0x10, 0x01, 0x00, 0x06, 0x00, 0x01];
const M_FILE: [u8; 13] = [
    0x10, 0x03, 0x00, 0x30, 0x00, 0x30, 0x00, 0x00, 0x10, 0x02, 0x00, 0x10, 0x02,
];
const F_LISTING: &str = "value 1 6 of 2
value 2 6 of 2
best 1 7 of 2
best 2 6 of 2
deviation player 1 gain 1 of 2
set 0 move 0
set 2 move 0
";

fn game_file() -> Vec<u8> {
    study_game().bytes().unwrap()
}

fn game() -> Game {
    check_game(&game_file()).unwrap()
}

fn judged(pair: &PlanWeights) -> Verdict {
    let game = game();
    verdict(&check_plan(&game, &pair.bytes().unwrap()).unwrap())
}

/// Values over D0 × D1 × D2 and best values over D0 × the other's D.
fn counts(pair: &PlanWeights) -> [i128; 4] {
    let game = game();
    let plan = check_plan(&game, &pair.bytes().unwrap()).unwrap();
    let [value_1, value_2] = Player::BOTH.map(|player| value_count(&plan, player));
    let from_table = Player::BOTH.map(|player| table_value_count(&plan, player));
    assert_eq!([value_1, value_2], from_table);
    let [best_1, best_2] = Player::BOTH.map(|player| best_response(&plan, player).count());
    [value_1, value_2, best_1, best_2]
}

#[test]
fn the_game_file_has_the_given_bytes() {
    let file = game_file();
    assert_eq!(file.len(), 80);
    assert_eq!(file[..8], HEADER_AND_SETS);
    assert_eq!(file[8 + 16..8 + 24], NODE_2);
    assert_eq!(file[8 + 64..8 + 72], NODE_8);
}

#[test]
fn the_table_has_the_given_rows() {
    let rows = payoff_table(&game());
    let rows: Vec<_> = rows.iter().map(|row| (row.sequences, row.sums)).collect();
    let expected = [
        ([2, 0], [3, 3]),
        ([3, 1], [2, 2]),
        ([3, 2], [5, 6]),
        ([4, 1], [0, 3]),
        ([4, 2], [6, 1]),
    ];
    assert_eq!(rows, expected);
}

#[test]
fn sequences_are_numbered_sets_rising_and_moves_rising() {
    let game = game();
    assert_eq!(game.sequence_count(Player::One), 5);
    assert_eq!(game.sequence_count(Player::Two), 3);
    let left = Move { set: 0, number: 0 };
    let late_t = Move { set: 2, number: 1 };
    assert_eq!(game.own_sequence(Player::One, 8), Ok(vec![left, late_t]));
    assert_eq!(game.node_sequence_number(Player::One, 8), Ok(4));
    assert_eq!(game.node_sequence_number(Player::Two, 8), Ok(2));
    assert_eq!(game.leading_sequence(2), Ok(vec![left]));
    let leading = [0, 1, 2].map(|set| game.leading_sequence_number(set));
    assert_eq!(leading, [Ok(0), Ok(0), Ok(1)]);
}

#[test]
fn payoffs_are_read_as_twos_complement() {
    let mut file = game_file();
    put_bits(&mut file, node_field(3, 8, PAYOFF_1), 0x8000);
    put_bits(&mut file, node_field(3, 8, PAYOFF_2), 0xffff);
    let game = check_game(&file).unwrap();
    assert_eq!(game.leaves().last().unwrap().payoffs, [-32_768, -1]);
}

#[test]
fn numbers_that_the_game_lacks_get_17() {
    let game = game();
    for player in Player::BOTH {
        assert_eq!(game.own_sequence(player, 9), Err(17));
        assert_eq!(game.node_sequence_number(player, usize::MAX), Err(17));
    }
    assert_eq!(game.leading_sequence(3), Err(17));
    assert_eq!(game.leading_sequence_number(usize::MAX), Err(17));
    assert_eq!(game.move_sequence(Move { set: 3, number: 0 }), Err(17));
    assert_eq!(game.move_sequence(Move { set: 0, number: 2 }), Err(17));
}

#[test]
fn plan_m_has_the_given_bytes_values_and_verdict() {
    assert_eq!(plan_m().bytes().unwrap(), M_FILE);
    assert_eq!(counts(&plan_m()), [36, 24, 12, 8]);
    assert_eq!(judged(&plan_m()), Verdict::Accepted);
}

#[test]
fn plan_q_and_the_fourth_plan_are_accepted() {
    assert_eq!(judged(&plan_q()), Verdict::Accepted);
    assert_eq!(judged(&plan_r_against_thirds()), Verdict::Accepted);
}

#[test]
fn plan_f_is_not_accepted() {
    let [value_1, _, best_1, _] = counts(&plan_f());
    assert_eq!((value_1, best_1), (6, 7));
    let expected = Deviation {
        player: Player::One,
        gain: 1,
        moves: vec![Move { set: 0, number: 0 }, Move { set: 2, number: 0 }],
    };
    assert_eq!(judged(&plan_f()), Verdict::Deviation(expected));
}

#[test]
fn the_listing_for_plan_f_is_exact() {
    let plan = plan_f().bytes().unwrap();
    assert_eq!(report(&game_file(), &plan), F_LISTING);
}

#[test]
fn one_leaf_alone_is_accepted() {
    let file = one_leaf([-5, 9]).bytes().unwrap();
    assert_eq!(file.len(), 13);
    let game = check_game(&file).unwrap();
    assert_eq!(plan_length(&game), 4);
    let plan_file = [0x10, 0x01, 0x00, 0x10];
    let plan = check_plan(&game, &plan_file).unwrap();
    assert_eq!(verdict(&plan), Verdict::Accepted);
    let listing = "value 1 -35 of 7\nvalue 2 63 of 7\nbest 1 -35 of 7\nbest 2 63 of 7\naccepted\n";
    assert_eq!(report(&file, &plan_file), listing);
}

#[test]
fn a_set_below_itself_breaks_perfect_recall() {
    assert_eq!(check_game(&set_below_itself().bytes().unwrap()), Err(13));
}

#[test]
fn the_shown_strategy_is_delivered_whole_or_not_at_all() {
    let Verdict::Deviation(shown) = judged(&plan_f()) else {
        panic!("player 1 gains");
    };
    let untouched = Move {
        set: 99,
        number: 99,
    };
    let mut short = [untouched; 1];
    assert_eq!(deliver(&shown.moves, &mut short), Err(18));
    assert_eq!(short, [untouched; 1]);
    let mut long = [untouched; 3];
    assert_eq!(deliver(&shown.moves, &mut long), Ok(2));
    let delivered = [
        Move { set: 0, number: 0 },
        Move { set: 2, number: 0 },
        untouched,
    ];
    assert_eq!(long, delivered);
}
