//! Games that break perfect recall, each in a way of its own.

use generator::tables::{GameTables, Place};
use reference::game::Player;

/// Player 1 has two moves, and then one in a set that forgets which he made.
pub fn last_move_forgotten() -> GameTables {
    let mut tables = GameTables::new(1);
    let start = tables.add_set(Player::One, 2);
    let late = tables.add_set(Player::One, 1);
    tables.add_decision(tables.root(), start);
    for number in 0..2 {
        let node = tables.add_decision(Place::new(0, number, 1), late);
        tables.add_leaf(Place::new(node, 0, 1), [0, 0]);
    }
    tables
}

/// Set 0, the last that player 2 moves in, forgets his first move only: the
/// last one is the same at both of its nodes.
pub fn earlier_move_forgotten() -> GameTables {
    let mut tables = GameTables::new(1);
    let last = tables.add_set(Player::Two, 1);
    let start = tables.add_set(Player::Two, 2);
    let middle = tables.add_set(Player::Two, 1);
    tables.add_decision(tables.root(), start);
    for number in 0..2 {
        let second = tables.add_decision(Place::new(0, number, 1), middle);
        let third = tables.add_decision(Place::new(second, 0, 1), last);
        tables.add_leaf(Place::new(third, 0, 1), [0, 0]);
    }
    tables
}

/// Set 0 is met after the only move of set 1, and after that of set 2: chance
/// decides.
pub fn set_forgotten() -> GameTables {
    let mut tables = GameTables::new(2);
    let late = tables.add_set(Player::One, 1);
    tables.add_chance(tables.root(), 2);
    for number in 0..2 {
        let start = tables.add_set(Player::One, 1);
        let first = tables.add_decision(Place::new(0, number, 1), start);
        let second = tables.add_decision(Place::new(first, 0, 1), late);
        tables.add_leaf(Place::new(second, 0, 1), [0, 0]);
    }
    tables
}

/// Set 0 is met after no own move, and after one: chance decides.
pub fn own_move_or_none() -> GameTables {
    let mut tables = GameTables::new(2);
    let late = tables.add_set(Player::One, 1);
    let start = tables.add_set(Player::One, 1);
    tables.add_chance(tables.root(), 2);
    let at_once = tables.add_decision(Place::new(0, 0, 1), late);
    let before = tables.add_decision(Place::new(0, 1, 1), start);
    let after = tables.add_decision(Place::new(before, 0, 1), late);
    tables.add_leaf(Place::new(at_once, 0, 1), [0, 0]);
    tables.add_leaf(Place::new(after, 0, 1), [0, 0]);
    tables
}

/// Set 0 is met after move 0 of set 1, and after its moves 1 and 0: the last
/// move is the same, the length is not.
pub fn longer_with_the_same_end() -> GameTables {
    let mut tables = GameTables::new(1);
    let late = tables.add_set(Player::One, 1);
    let start = tables.add_set(Player::One, 2);
    tables.add_decision(tables.root(), start);
    let short = tables.add_decision(Place::new(0, 0, 1), late);
    let second = tables.add_decision(Place::new(0, 1, 1), start);
    let long = tables.add_decision(Place::new(second, 0, 1), late);
    tables.add_leaf(Place::new(second, 1, 1), [0, 0]);
    tables.add_leaf(Place::new(short, 0, 1), [0, 0]);
    tables.add_leaf(Place::new(long, 0, 1), [0, 0]);
    tables
}
