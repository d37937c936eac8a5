//! Game files that break no rule.

use super::{made_for, Case};
use generator::large::{most_nodes, most_sets};
use generator::named::{long_path, one_leaf, own_chain, study_game, wide_chance, wide_decision};
use generator::poker::{kuhn, leduc};
use generator::tables::{GameTables, Place};
use reference::game::Player;
use reference::Refusal;

pub fn cases() -> Result<Vec<Case>, Refusal> {
    let files = [
        ("study-game", study_game().bytes()?),
        ("one-leaf", one_leaf([-1, 1]).bytes()?),
        ("no-sets", no_sets().bytes()?),
        ("chance-game", chance_game().bytes()?),
        ("kuhn-poker", kuhn().bytes()?),
        ("leduc-poker", leduc().bytes()?),
        ("64-moves-in-a-set", wide_decision(64).bytes()?),
        ("64-moves-of-chance", wide_chance(64).bytes()?),
        ("path-of-255-moves", long_path(255).bytes()?),
        ("own-path-of-255-moves", own_chain(255).bytes()?),
        ("4095-nodes", most_nodes().bytes()?),
        ("most-sets", most_sets().bytes()?),
    ];
    Ok(made_for(0, files))
}

/// H = 0: chance alone moves, twice on one of its paths.
fn no_sets() -> GameTables {
    let mut tables = GameTables::new(7);
    let root = tables.add_chance(tables.root(), 2);
    let second = tables.add_chance(Place::new(root, 1, 6), 2);
    tables.add_leaf(Place::new(second, 1, 1), [0, -1]);
    tables.add_leaf(Place::new(root, 0, 1), [-32_768, 32_767]);
    tables.add_leaf(Place::new(second, 0, 5), [32_767, -32_768]);
    tables
}

/// Chance deals, player 2 moves in set 1, then player 1 in set 2, and player 2
/// again in set 0, which so follows a set of larger number. Neither sees the
/// deal. After player 1's move 1 he moves again in set 3, and after move 1 there
/// once more in set 4.
pub fn chance_game() -> GameTables {
    let mut tables = GameTables::new(12);
    let last = tables.add_set(Player::Two, 2);
    let first = tables.add_set(Player::Two, 2);
    let answer = tables.add_set(Player::One, 3);
    let again = tables.add_set(Player::One, 2);
    let once_more = tables.add_set(Player::One, 1);
    let root = tables.add_chance(tables.root(), 3);
    let deals = [(0, 1), (1, 4)];
    let starts = deals.map(|(deal, weight)| {
        let node = tables.add_decision(Place::new(root, deal, weight), first);
        (node, weight)
    });
    tables.add_leaf(Place::new(root, 2, 7), [-32_768, 32_767]);
    let answers = starts.map(|(start, weight)| {
        let node = tables.add_decision(Place::new(start, 0, weight), answer);
        (node, weight)
    });
    tables.add_leaf(Place::new(starts[0].0, 1, 1), [-1, 0]);
    let late_chance = tables.add_chance(Place::new(starts[1].0, 1, 4), 2);
    tables.add_leaf(Place::new(late_chance, 0, 1), [1, -1]);
    tables.add_leaf(Place::new(late_chance, 1, 3), [-2, 2]);
    for (node, weight) in answers {
        let end = tables.add_decision(Place::new(node, 0, weight), last);
        let more = tables.add_decision(Place::new(node, 1, weight), again);
        tables.add_leaf(Place::new(node, 2, weight), [-32_767, 0]);
        tables.add_leaf(Place::new(end, 0, weight), [3, -3]);
        tables.add_leaf(Place::new(end, 1, weight), [-300, 300]);
        tables.add_leaf(Place::new(more, 0, weight), [0, 0]);
        let third = tables.add_decision(Place::new(more, 1, weight), once_more);
        tables.add_leaf(Place::new(third, 0, weight), [256, -256]);
    }
    tables
}
