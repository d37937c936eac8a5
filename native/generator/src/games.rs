//! Random games that obey every rule.

use crate::grouping::Grouping;
use crate::rng::Rng;
use crate::shape::{Payoffs, Shape};
use crate::tables::{GameTables, Place};
use crate::tree::{DraftKind, Tree};
use reference::brute::pure_strategies;
use reference::game::{check_game, Player};

/// A random game of that shape.
pub fn random_game(rng: &mut Rng, shape: &Shape) -> GameTables {
    let tree = Tree::grow(rng, shape);
    game_of(rng, &tree, shape.merge_percent, shape.payoffs)
}

/// A game on a tree: its decisions put into sets, its nodes in some order, its payoffs drawn.
pub(crate) fn game_of(
    rng: &mut Rng,
    tree: &Tree,
    merge_percent: usize,
    payoffs: Payoffs,
) -> GameTables {
    let grouping = Grouping::of(rng, tree, merge_percent);
    let order = tree.random_order(rng);
    let mut numbers = vec![0; order.len()];
    for (number, &node) in order.iter().enumerate() {
        numbers[node] = number as u64;
    }
    let mut tables = GameTables::new(tree.nodes[0].weight);
    for &(player, moves) in &grouping.sets {
        tables.add_set(player, moves as u64);
    }
    for &node in &order {
        let draft = &tree.nodes[node];
        let parent = numbers[draft.parent];
        let place = Place::new(parent, draft.move_number as u64, draft.weight);
        match draft.kind {
            DraftKind::Leaf => tables.add_leaf(place, payoffs.draw(rng)),
            DraftKind::Decision { .. } => tables.add_decision(place, grouping.of_node[node] as u64),
            DraftKind::Chance { moves } => tables.add_chance(place, moves as u64),
        };
    }
    tables
}

/// A random game of at most 60 nodes in which neither player has more than `limit` pure
/// strategies.
pub fn game_of_few_strategies(rng: &mut Rng, limit: usize) -> GameTables {
    loop {
        let shape = if rng.percent(50) {
            Shape::random(rng, 36, 4)
        } else {
            Shape::crowded(rng, 60)
        };
        let tables = random_game(rng, &shape);
        let game = tables.bytes().and_then(|bytes| check_game(&bytes));
        let few = |game: &_| {
            let mut players = Player::BOTH.iter();
            players.all(|&player| pure_strategies(game, player, limit).is_some())
        };
        if game.is_ok_and(|game| few(&game)) {
            return tables;
        }
    }
}
