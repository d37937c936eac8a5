//! The wrong turns that document 01 bars, each with a game that shows it.

use generator::named::{plan_f, study_game};
use generator::tables::{GameTables, Place, PlanWeights};
use reference::form::{best_response, payoff_table};
use reference::game::{check_game, Move, Player};
use reference::plan::check_plan;

/// Player 1's best value and worthiest moves.
fn best_of_player_1(tables: &GameTables, pair: &PlanWeights) -> (i128, Vec<Move>) {
    let game = check_game(&tables.bytes().unwrap()).unwrap();
    let bytes = pair.bytes().unwrap();
    let plan = check_plan(&game, &bytes).unwrap();
    let best = best_response(&plan, Player::One);
    (best.count(), best.moves)
}

fn choice(set: usize, number: usize) -> Move {
    Move { set, number }
}

/// Chance deals one of two nodes of player 1's only set.
fn blind_choice(payoffs: [[i64; 2]; 2]) -> GameTables {
    let mut tables = GameTables::new(2);
    let set = tables.add_set(Player::One, 2);
    tables.add_chance(tables.root(), 2);
    for (deal, payoffs) in payoffs.into_iter().enumerate() {
        let node = tables.add_decision(Place::new(0, deal as u64, 1), set);
        for (number, payoff) in payoffs.into_iter().enumerate() {
            tables.add_leaf(Place::new(node, number as u64, 1), [payoff, 0]);
        }
    }
    tables
}

#[test]
fn a_set_that_the_plan_never_reaches_has_its_worth() {
    let (best, moves) = best_of_player_1(&study_game(), &plan_f());
    assert_eq!(best, 7);
    assert_eq!(moves, [choice(0, 0), choice(2, 0)]);
}

#[test]
fn leaves_at_one_pair_of_sequences_are_summed() {
    let game = blind_choice([[10, 1], [20, 2]]);
    let game = check_game(&game.bytes().unwrap()).unwrap();
    let rows = payoff_table(&game);
    let rows: Vec<_> = rows.iter().map(|row| (row.sequences, row.sums)).collect();
    assert_eq!(rows, [([1, 0], [30, 0]), ([2, 0], [3, 0])]);
}

#[test]
fn one_move_serves_all_nodes_of_a_set() {
    let pair = PlanWeights {
        weights: [vec![1, 1, 0], vec![1]],
    };
    let (best, moves) = best_of_player_1(&blind_choice([[5, 0], [0, 6]]), &pair);
    assert_eq!(best, 6);
    assert_eq!(moves, [choice(0, 1)]);
}

#[test]
fn the_lowest_of_equal_moves_is_taken() {
    let pair = PlanWeights {
        weights: [vec![1, 0, 1], vec![1]],
    };
    let (best, moves) = best_of_player_1(&blind_choice([[5, 0], [0, 5]]), &pair);
    assert_eq!(best, 5);
    assert_eq!(moves, [choice(0, 0)]);
}

/// Set 1 leads to set 0, whose second move is worth more than leaving early.
#[test]
fn a_set_may_follow_a_set_of_larger_number() {
    let mut tables = GameTables::new(1);
    let late = tables.add_set(Player::One, 2);
    let early = tables.add_set(Player::One, 2);
    tables.add_decision(tables.root(), early);
    tables.add_leaf(Place::new(0, 0, 1), [3, 0]);
    tables.add_decision(Place::new(0, 1, 1), late);
    tables.add_leaf(Place::new(2, 0, 1), [1, 0]);
    tables.add_leaf(Place::new(2, 1, 1), [4, 0]);
    let pair = PlanWeights {
        weights: [vec![1, 0, 0, 1, 0], vec![1]],
    };
    let (best, moves) = best_of_player_1(&tables, &pair);
    assert_eq!(best, 4);
    assert_eq!(moves, [choice(0, 1), choice(1, 1)]);
}
