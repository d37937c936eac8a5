//! Small games for the sequence form and the verdict, each with few leaves to work by hand.

use generator::tables::{GameTables, Place, PlanWeights};
use reference::game::Player;

/// Chance leads, with weight 1 each, to player 1's set 0 with these payoffs to him, and to
/// player 2's set 1 with those to her; the other gets 0.
pub fn choices(one: &[i64], two: &[i64]) -> GameTables {
    let mut tables = GameTables::new(2);
    let first = tables.add_set(Player::One, one.len() as u64);
    let second = tables.add_set(Player::Two, two.len() as u64);
    let root = tables.add_chance(tables.root(), 2);
    let left = tables.add_decision(Place::new(root, 0, 1), first);
    let right = tables.add_decision(Place::new(root, 1, 1), second);
    for (number, &payoff) in one.iter().enumerate() {
        tables.add_leaf(Place::new(left, number as u64, 1), [payoff, 0]);
    }
    for (number, &payoff) in two.iter().enumerate() {
        tables.add_leaf(Place::new(right, number as u64, 1), [0, payoff]);
    }
    tables
}

/// Move 0 by both in such a game.
pub fn first_choices(one: usize, two: usize) -> PlanWeights {
    weights(&first_of(one), &first_of(two))
}

fn first_of(moves: usize) -> Vec<u64> {
    let mut weights = vec![0; moves + 1];
    weights[..2].fill(1);
    weights
}

/// Both players' weights by sequence number, D1 and D2 first.
pub fn weights(one: &[u64], two: &[u64]) -> PlanWeights {
    PlanWeights {
        weights: [one.to_vec(), two.to_vec()],
    }
}

/// Five leaves on three pairs: two of chance alone, then one and two after player 1's moves.
pub fn several_leaves() -> GameTables {
    let mut tables = GameTables::new(12);
    let set = tables.add_set(Player::One, 2);
    let root = tables.add_chance(tables.root(), 3);
    tables.add_leaf(Place::new(root, 0, 1), [5, -1]);
    let node = tables.add_decision(Place::new(root, 1, 9), set);
    tables.add_leaf(Place::new(root, 2, 2), [-7, 4]);
    let late = tables.add_chance(Place::new(node, 1, 9), 2);
    tables.add_leaf(Place::new(node, 0, 9), [1, 2]);
    tables.add_leaf(Place::new(late, 0, 4), [10, -10]);
    tables.add_leaf(Place::new(late, 1, 5), [-3, 7]);
    tables
}

/// Sums that cancel to 0: for player 1 at the empty pair, for both at player 2's move 0; at
/// her move 1 a single leaf gives 0 and 0.
pub fn cancelling() -> GameTables {
    let mut tables = GameTables::new(10);
    let set = tables.add_set(Player::Two, 2);
    let root = tables.add_chance(tables.root(), 4);
    tables.add_leaf(Place::new(root, 0, 1), [2, 5]);
    tables.add_leaf(Place::new(root, 1, 2), [-1, 1]);
    for (deal, weight, payoff) in [(2, 3, 4), (3, 4, -3)] {
        let node = tables.add_decision(Place::new(root, deal, weight), set);
        tables.add_leaf(Place::new(node, 0, weight), [payoff, -payoff]);
        tables.add_leaf(Place::new(node, 1, weight), [0, 0]);
    }
    tables
}

/// D0 = 4,095: chance, then player 1, then player 2, neither seeing what came before; each
/// leaf's payoffs are the next of these.
pub fn extremes(payoffs: [[i64; 2]; 4]) -> GameTables {
    let mut tables = GameTables::new(4_095);
    let one = tables.add_set(Player::One, 2);
    let two = tables.add_set(Player::Two, 2);
    let root = tables.add_chance(tables.root(), 2);
    for (deal, weight) in [(0, 4_094), (1, 1)] {
        let node = tables.add_decision(Place::new(root, deal, weight), one);
        for number in 0..2 {
            let below = tables.add_decision(Place::new(node, number, weight), two);
            for answer in 0..2 {
                let payoffs = payoffs[2 * number as usize + answer as usize];
                tables.add_leaf(Place::new(below, answer, weight), payoffs);
            }
        }
    }
    tables
}

/// Player 1's sets 2, 1 and 0 one after the other, each behind move 1 of the one before; the
/// most lies behind all three.
pub fn falling_sets() -> GameTables {
    let mut tables = GameTables::new(1);
    for moves in [3, 2, 2] {
        tables.add_set(Player::One, moves);
    }
    let root = tables.add_decision(tables.root(), 2);
    tables.add_leaf(Place::new(root, 0, 1), [3, 0]);
    let middle = tables.add_decision(Place::new(root, 1, 1), 1);
    tables.add_leaf(Place::new(middle, 0, 1), [5, 0]);
    let last = tables.add_decision(Place::new(middle, 1, 1), 0);
    for (number, payoff) in [(0, -8), (1, 4), (2, 9)] {
        tables.add_leaf(Place::new(last, number, 1), [payoff, 0]);
    }
    tables
}

/// Set 0 of player 2 with three moves, and no set of player 1.
pub fn second_alone() -> GameTables {
    let mut tables = GameTables::new(5);
    let set = tables.add_set(Player::Two, 3);
    let root = tables.add_decision(tables.root(), set);
    for (number, payoffs) in [[4, -4], [-2, -1], [0, -6]].into_iter().enumerate() {
        tables.add_leaf(Place::new(root, number as u64, 5), payoffs);
    }
    tables
}

/// Player 1's set 0 has two nodes, dealt with weights 1 and 2; move 0 is better at the first,
/// move 1 at the second, and move 1 at both together.
pub fn two_nodes() -> GameTables {
    let mut tables = GameTables::new(3);
    let set = tables.add_set(Player::One, 2);
    let root = tables.add_chance(tables.root(), 2);
    for (deal, weight, payoffs) in [(0, 1, [4, 0]), (1, 2, [0, 3])] {
        let node = tables.add_decision(Place::new(root, deal, weight), set);
        for (number, payoff) in payoffs.into_iter().enumerate() {
            tables.add_leaf(Place::new(node, number as u64, weight), [payoff, -payoff]);
        }
    }
    tables
}

/// Player 2's set 0, then player 1's set 1 behind her move 1, with -5 and 9, and his set 2
/// behind her move 0, with 0 and 4.
pub fn after_the_other() -> GameTables {
    let mut tables = GameTables::new(1);
    tables.add_set(Player::Two, 2);
    let barred = tables.add_set(Player::One, 2);
    let open = tables.add_set(Player::One, 2);
    let root = tables.add_decision(tables.root(), 0);
    for (number, set, payoffs) in [(0, open, [0, 4]), (1, barred, [-5, 9])] {
        let node = tables.add_decision(Place::new(root, number, 1), set);
        for (number, payoff) in payoffs.into_iter().enumerate() {
            tables.add_leaf(Place::new(node, number as u64, 1), [payoff, 0]);
        }
    }
    tables
}

/// Player 1's set 0: move 0 gives 3, move 1 leads to his set 1, which gives 1 or the most, and
/// move 2 gives 5.
pub fn after_his_own(most: i64) -> GameTables {
    let mut tables = GameTables::new(1);
    let first = tables.add_set(Player::One, 3);
    let second = tables.add_set(Player::One, 2);
    let root = tables.add_decision(tables.root(), first);
    tables.add_leaf(Place::new(root, 0, 1), [3, 0]);
    let node = tables.add_decision(Place::new(root, 1, 1), second);
    tables.add_leaf(Place::new(root, 2, 1), [5, 0]);
    tables.add_leaf(Place::new(node, 0, 1), [1, 0]);
    tables.add_leaf(Place::new(node, 1, 1), [most, 0]);
    tables
}

/// Player 1's set 1; behind his move 0 player 2's set 2, and behind his move 1 her set 0.
pub fn second_around_first() -> GameTables {
    let mut tables = GameTables::new(1);
    let late = tables.add_set(Player::Two, 3);
    let first = tables.add_set(Player::One, 2);
    let early = tables.add_set(Player::Two, 2);
    let root = tables.add_decision(tables.root(), first);
    let sets = [(0, early, &[-7, 2][..]), (1, late, &[-1, 4, 4])];
    for (number, set, payoffs) in sets {
        let node = tables.add_decision(Place::new(root, number, 1), set);
        for (number, &payoff) in payoffs.iter().enumerate() {
            tables.add_leaf(Place::new(node, number as u64, 1), [0, payoff]);
        }
    }
    tables
}
