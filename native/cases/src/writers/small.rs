//! A game with nodes of every kind to make the cases of: chance deals, player 2 moves
//! in set 0 after one deal, and player 1 has a single move after one of his.

use generator::tables::{GameTables, Place};
use reference::game::Player;

/// Its nodes of each kind.
pub const CHANCE: usize = 0;
pub const DECISION: usize = 1;
pub const LEAF: usize = 2;

/// Its number of bytes: 2 sets and 6 nodes.
pub const LENGTH: usize = 5 + 2 + 8 * 6;

pub fn small_game() -> GameTables {
    let mut tables = GameTables::new(5);
    let first = tables.add_set(Player::Two, 2);
    let second = tables.add_set(Player::One, 1);
    let root = tables.add_chance(tables.root(), 2);
    let dealt = tables.add_decision(Place::new(root, 0, 2), first);
    tables.add_leaf(Place::new(root, 1, 3), [-1, 1]);
    let after = tables.add_decision(Place::new(dealt, 0, 2), second);
    tables.add_leaf(Place::new(dealt, 1, 2), [32_767, -32_768]);
    tables.add_leaf(Place::new(after, 0, 2), [0, 256]);
    tables
}
