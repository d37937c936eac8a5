//! Changes of one field, each of which breaks the rule that is named.

use crate::edit::*;
use crate::rng::Rng;
use reference::game::{Game, Kind, Player};
use reference::plan::Plan;

/// A field with its new number.
pub type Change = (Field, u64);

/// 4: the counts in the header go with another length.
pub fn count_changes(rng: &mut Rng, game: &Game) -> Vec<Change> {
    let nodes = game.nodes().len() as u64;
    let sets = game.sets().len() as u64;
    vec![
        (NODES, rng.between_but(1, 4_095, nodes)),
        (SETS, rng.between_but(0, 4_095, sets)),
    ]
}

/// 0, or a move count above 64 that 7 bits hold.
fn bad_move_count(rng: &mut Rng) -> u64 {
    if rng.percent(50) {
        0
    } else {
        rng.between(65, 127)
    }
}

/// 5
pub fn set_entry_changes(rng: &mut Rng, game: &Game) -> Vec<Change> {
    let sets = 0..game.sets().len();
    sets.map(|set| (set_moves(set), bad_move_count(rng)))
        .collect()
}

/// 6
pub fn kind_and_zero_changes(rng: &mut Rng, game: &Game) -> Vec<Change> {
    let mut changes = Vec::new();
    for (number, node) in game.nodes().iter().enumerate() {
        let at = |within| node_field(game.sets().len(), number, within);
        changes.push((at(KIND), 3));
        match node.kind {
            Kind::Leaf { .. } => {}
            Kind::Decision { .. } => {
                let bit = 1 << rng.below(DECISION_ZEROS.width);
                changes.push((at(DECISION_ZEROS), bit));
            }
            Kind::Chance { .. } => {
                let bit = 1 << rng.below(CHANCE_ZEROS.width);
                changes.push((at(CHANCE_ZEROS), bit));
            }
        }
    }
    changes
}

/// 7
pub fn payload_changes(rng: &mut Rng, game: &Game) -> Vec<Change> {
    let sets = game.sets().len();
    let mut changes = Vec::new();
    for (number, node) in game.nodes().iter().enumerate() {
        match node.kind {
            Kind::Leaf { .. } => {}
            Kind::Decision { .. } => {
                let set = rng.between(sets as u64, 4_095);
                changes.push((node_field(sets, number, DECISION_SET), set));
            }
            Kind::Chance { .. } => {
                let moves = bad_move_count(rng);
                changes.push((node_field(sets, number, CHANCE_MOVES), moves));
            }
        }
    }
    changes
}

/// 8
pub fn parent_changes(rng: &mut Rng, game: &Game) -> Vec<Change> {
    let at = |number, within| node_field(game.sets().len(), number, within);
    let mut changes = vec![
        (at(0, PARENT), rng.between(1, 4_095)),
        (at(0, MOVE), rng.between(1, 63)),
    ];
    let mut leaves = Vec::new();
    for (number, node) in game.nodes().iter().enumerate() {
        if number > 0 {
            changes.push((at(number, PARENT), rng.between(number as u64, 4_095)));
            let leaf = rng.pick(&leaves);
            changes.extend(leaf.map(|&leaf| (at(number, PARENT), leaf)));
            let moves = game.move_count(node.parent) as u64;
            if moves < 64 {
                changes.push((at(number, MOVE), rng.between(moves, 63)));
            }
        }
        if let Kind::Leaf { .. } = node.kind {
            leaves.push(number as u64);
        }
    }
    changes
}

/// 9
pub fn child_changes(rng: &mut Rng, game: &Game) -> Vec<Change> {
    let sets = game.sets().len();
    let mut changes = Vec::new();
    for (set, entry) in game.sets().iter().enumerate() {
        if entry.moves < 64 {
            changes.push((set_moves(set), entry.moves as u64 + 1));
        }
    }
    for (number, node) in game.nodes().iter().enumerate() {
        match node.kind {
            Kind::Chance { moves } if moves < 64 => {
                changes.push((node_field(sets, number, CHANCE_MOVES), moves as u64 + 1));
            }
            _ => {}
        }
        let moves = game.move_count(node.parent) as u64;
        if number > 0 && moves > 1 {
            let same = rng.between_but(0, moves - 1, node.move_number as u64);
            changes.push((node_field(sets, number, MOVE), same));
        }
    }
    changes
}

/// 10
pub fn weight_changes(rng: &mut Rng, game: &Game) -> Vec<Change> {
    let mut changes = vec![(ROOT_WEIGHT, rng.between_but(1, 4_095, game.root_weight()))];
    for (number, node) in game.nodes().iter().enumerate() {
        let weight = node_field(game.sets().len(), number, WEIGHT);
        changes.push((weight, 0));
        changes.push((weight, rng.between_but(1, 4_095, node.weight)));
    }
    changes
}

/// 15
pub fn plan_header_changes(rng: &mut Rng, plan: &Plan) -> Vec<Change> {
    let mut changes = vec![
        (EDITION, rng.between_but(0, 15, 1)),
        (D1, 0),
        (D2, 0),
        (PLAN_ZEROS, rng.between(1, 15)),
    ];
    let moves = plan.weights_in_file_order().len();
    if moves % 2 == 1 {
        let filling = Field {
            position: plan_weight(moves).position,
            width: 4,
        };
        changes.push((filling, rng.between(1, 15)));
    }
    changes
}

/// 16
pub fn plan_weight_changes(rng: &mut Rng, plan: &Plan) -> Vec<Change> {
    let mut changes = Vec::new();
    for (place, &weight) in plan.weights_in_file_order().iter().enumerate() {
        changes.push((plan_weight(place), rng.between_but(0, 4_095, weight)));
    }
    for (player, field) in [(Player::One, D1), (Player::Two, D2)] {
        if !plan.game().sets_of(player).is_empty() {
            let other = rng.between_but(1, 4_095, plan.denominator(player));
            changes.push((field, other));
        }
    }
    changes
}
