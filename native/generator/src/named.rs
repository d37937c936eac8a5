//! The games and plans that document 01 names, games for play sheets, and pairs for the house
//! tolerance.

use crate::tables::{GameTables, Place, PlanWeights};
use reference::game::Player;

/// The study game of document 01, from document 003.
pub fn study_game() -> GameTables {
    let mut tables = GameTables::new(1);
    let root = tables.add_set(Player::One, 2);
    let answer = tables.add_set(Player::Two, 2);
    let late = tables.add_set(Player::One, 2);
    tables.add_decision(tables.root(), root);
    tables.add_decision(Place::new(0, 0, 1), answer);
    tables.add_leaf(Place::new(0, 1, 1), [3, 3]);
    tables.add_decision(Place::new(1, 0, 1), late);
    tables.add_decision(Place::new(1, 1, 1), late);
    tables.add_leaf(Place::new(3, 0, 1), [2, 2]);
    tables.add_leaf(Place::new(3, 1, 1), [0, 3]);
    tables.add_leaf(Place::new(4, 0, 1), [5, 6]);
    tables.add_leaf(Place::new(4, 1, 1), [6, 1]);
    tables
}

/// Plan Q of the study game: R and l.
pub fn plan_q() -> PlanWeights {
    PlanWeights {
        weights: [vec![1, 0, 1, 0, 0], vec![1, 1, 0]],
    }
}

/// Plan M of the study game, mixed by both players.
pub fn plan_m() -> PlanWeights {
    PlanWeights {
        weights: [vec![3, 3, 0, 1, 2], vec![3, 1, 2]],
    }
}

/// Plan F of the study game, from which player 1 gains.
pub fn plan_f() -> PlanWeights {
    PlanWeights {
        weights: [vec![1, 0, 1, 0, 0], vec![2, 1, 1]],
    }
}

/// The fourth plan of the study game: R against l 2, r 1 of 3.
pub fn plan_r_against_thirds() -> PlanWeights {
    PlanWeights {
        weights: [vec![1, 0, 1, 0, 0], vec![3, 2, 1]],
    }
}

/// Pair A of the study game: player 1 alone gains, 9 of 27.
pub fn pair_a() -> PlanWeights {
    PlanWeights {
        weights: [vec![9, 6, 3, 2, 4], vec![3, 1, 2]],
    }
}

/// Pair B of the study game: player 1 gains 3 of 27 and player 2 gains 12.
pub fn pair_b() -> PlanWeights {
    PlanWeights {
        weights: [vec![9, 3, 6, 2, 1], vec![3, 2, 1]],
    }
}

/// Pair C of the study game: player 1 alone gains, 18 of 27.
pub fn pair_c() -> PlanWeights {
    PlanWeights {
        weights: [vec![9, 3, 6, 1, 2], vec![3, 1, 2]],
    }
}

/// One leaf alone, with D0 = 7.
pub fn one_leaf(payoffs: [i64; 2]) -> GameTables {
    let mut tables = GameTables::new(7);
    tables.add_leaf(tables.root(), payoffs);
    tables
}

/// A root of set 0, which has one move, with a child of set 0 and a leaf below
/// that. It breaks perfect recall.
pub fn set_below_itself() -> GameTables {
    let mut tables = GameTables::new(1);
    let set = tables.add_set(Player::One, 1);
    tables.add_decision(tables.root(), set);
    tables.add_decision(Place::new(0, 0, 1), set);
    tables.add_leaf(Place::new(1, 0, 1), [0, 0]);
    tables
}

/// A path of `moves` moves, each a chance node's only one, with a leaf below.
pub fn long_path(moves: u64) -> GameTables {
    let mut tables = GameTables::new(1);
    let mut place = tables.root();
    for _ in 0..moves {
        let node = tables.add_chance(place, 1);
        place = Place::new(node, 0, 1);
    }
    tables.add_leaf(place, [1, -1]);
    tables
}

/// A path of `moves` moves of player 2, each in a set of its own, with a leaf
/// below; the sets have falling numbers.
pub fn own_chain(moves: u64) -> GameTables {
    let mut tables = GameTables::new(1);
    for _ in 0..moves {
        tables.add_set(Player::Two, 1);
    }
    let mut place = tables.root();
    for set in (0..moves).rev() {
        place = Place::new(tables.add_decision(place, set), 0, 1);
    }
    tables.add_leaf(place, [0, 0]);
    tables
}

/// A decision of player 1 with `moves` moves that lead to leaves.
pub fn wide_decision(moves: u64) -> GameTables {
    let mut tables = GameTables::new(1);
    let set = tables.add_set(Player::One, moves);
    tables.add_decision(tables.root(), set);
    for number in 0..moves {
        tables.add_leaf(Place::new(0, number, 1), [number as i64, 0]);
    }
    tables
}

/// A decision of player 1 between two leaves with these payoffs to him.
pub fn one_choice(payoffs: [i64; 2]) -> GameTables {
    let mut tables = GameTables::new(1);
    let set = tables.add_set(Player::One, 2);
    tables.add_decision(tables.root(), set);
    for (number, payoff) in payoffs.into_iter().enumerate() {
        tables.add_leaf(Place::new(0, number as u64, 1), [payoff, 0]);
    }
    tables
}

/// A chance root with `moves` equal moves that lead to leaves.
pub fn wide_chance(moves: u64) -> GameTables {
    let mut tables = GameTables::new(moves);
    tables.add_chance(tables.root(), moves);
    for number in 0..moves {
        tables.add_leaf(Place::new(0, number, 1), [number as i64, 0]);
    }
    tables
}

/// Player 1 moves in set 1, and after its move 0 in set 0, which so follows a set of larger
/// number.
pub fn backward() -> GameTables {
    let mut tables = GameTables::new(1);
    let late = tables.add_set(Player::One, 2);
    let early = tables.add_set(Player::One, 2);
    let root = tables.add_decision(tables.root(), early);
    let next = tables.add_decision(Place::new(root, 0, 1), late);
    tables.add_leaf(Place::new(root, 1, 1), [0, 0]);
    tables.add_leaf(Place::new(next, 0, 1), [1, -1]);
    tables.add_leaf(Place::new(next, 1, 1), [-1, 1]);
    tables
}

/// So many sets of a player in a row, each of two moves: move 0 leads to a leaf, move 1 on.
pub fn row_of_sets(player: Player, sets: u64) -> GameTables {
    let mut tables = GameTables::new(1);
    let mut place = tables.root();
    for _ in 0..sets {
        let set = tables.add_set(player, 2);
        let node = tables.add_decision(place, set);
        tables.add_leaf(Place::new(node, 0, 1), [-1, 1]);
        place = Place::new(node, 1, 1);
    }
    tables.add_leaf(place, [0, 0]);
    tables
}
