//! Fields for the game writer: numbers that fit, and each way in which they do not.

use crate::rng::Rng;
use crate::tables::GameTables;
use reference::writer::Fields;

const LEAF: u64 = 0;
const DECISION: u64 = 1;
const CHANCE: u64 = 2;

type List = fn(&mut Fields) -> &mut Vec<u64>;

/// The lists of numbers that any set or node may have, with the width of each field.
const PLAIN_LISTS: [(List, u32); 5] = [
    (|fields| &mut fields.players, 1),
    (|fields| &mut fields.set_moves, 7),
    (|fields| &mut fields.parents, 12),
    (|fields| &mut fields.moves, 6),
    (|fields| &mut fields.weights, 12),
];

/// Those that nodes of one kind alone have.
const KIND_LISTS: [(List, u32, u64); 2] = [
    (|fields| &mut fields.sets, 12, DECISION),
    (|fields| &mut fields.chance_moves, 7, CHANCE),
];

/// Any fields that fit; few make a legal game.
pub fn fitting_fields(rng: &mut Rng, sets: usize, nodes: usize) -> GameTables {
    let mut tables = GameTables::new(number(rng, 12));
    let fields = &mut tables.fields;
    for _ in 0..sets {
        fields.players.push(number(rng, 1));
        fields.set_moves.push(number(rng, 7));
    }
    for _ in 0..nodes {
        let kind = rng.between(LEAF, CHANCE);
        let given = |has: bool, number| if has { number } else { 0 };
        fields.kinds.push(kind);
        fields.parents.push(number(rng, 12));
        fields.moves.push(number(rng, 6));
        fields.weights.push(number(rng, 12));
        let payoffs = [payoff(rng), payoff(rng)];
        for (list, payoff) in fields.payoffs.iter_mut().zip(payoffs) {
            list.push(if kind == LEAF { payoff } else { 0 });
        }
        fields.sets.push(given(kind == DECISION, number(rng, 12)));
        fields
            .chance_moves
            .push(given(kind == CHANCE, number(rng, 7)));
    }
    tables
}

/// A number of so many bits, often the largest or the smallest.
fn number(rng: &mut Rng, width: u32) -> u64 {
    let largest = (1 << width) - 1;
    match rng.below(4) {
        0 => largest,
        1 => 0,
        _ => rng.between(0, largest),
    }
}

fn payoff(rng: &mut Rng) -> i64 {
    match rng.below(4) {
        0 => 32_767,
        1 => -32_768,
        _ => rng.signed(-32_768, 32_767),
    }
}

/// 17: the fields with one thing that does not fit, in each way that they have room for.
pub fn refused_fields(rng: &mut Rng, tables: &GameTables) -> Vec<GameTables> {
    let mut refused = with_wide_numbers(rng, tables);
    refused.extend(with_wide_payoffs(rng, tables));
    refused.extend(with_other_kinds(rng, tables));
    refused.extend(with_lacking_numbers(rng, tables));
    refused.extend(with_unlike_lengths(tables));
    refused
}

fn changed(tables: &GameTables, change: impl FnOnce(&mut GameTables)) -> GameTables {
    let mut tables = tables.clone();
    change(&mut tables);
    tables
}

/// Numbers that are too large for a field; all but the last two leave what was there
/// in the field's own bits.
fn too_large(old: u64, width: u32) -> [u64; 5] {
    let one_more_bit = old | 1 << width;
    [
        one_more_bit,
        old | 1 << 32,
        old | 1 << 63,
        1 << width,
        u64::MAX,
    ]
}

fn with_wide_numbers(rng: &mut Rng, tables: &GameTables) -> Vec<GameTables> {
    let mut refused: Vec<GameTables> = too_large(tables.root_weight, 12)
        .map(|weight| changed(tables, |tables| tables.root_weight = weight))
        .into();
    let mut places: Vec<(List, u32, usize)> = Vec::new();
    for (list, width) in PLAIN_LISTS {
        let length = list(&mut tables.fields.clone()).len();
        if length > 0 {
            places.push((list, width, rng.below(length)));
        }
    }
    for (list, width, kind) in KIND_LISTS {
        let node = node_of_kind(rng, &tables.fields, |other| other == kind);
        places.extend(node.map(|node| (list, width, node)));
    }
    for (list, width, place) in places {
        let old = list(&mut tables.fields.clone())[place];
        for number in too_large(old, width) {
            let change = |tables: &mut GameTables| list(&mut tables.fields)[place] = number;
            refused.push(changed(tables, change));
        }
    }
    refused
}

fn with_wide_payoffs(rng: &mut Rng, tables: &GameTables) -> Vec<GameTables> {
    let Some(leaf) = node_of_kind(rng, &tables.fields, |kind| kind == LEAF) else {
        return Vec::new();
    };
    let mut refused = Vec::new();
    for player in 0..2 {
        let old = tables.fields.payoffs[player][leaf];
        let wide = [
            32_768,
            -32_769,
            old + 65_536,
            old - 65_536,
            old + (1 << 32),
            i64::MAX,
            i64::MIN,
        ];
        for payoff in wide {
            let change = |tables: &mut GameTables| tables.fields.payoffs[player][leaf] = payoff;
            refused.push(changed(tables, change));
        }
    }
    refused
}

/// Kinds above 2, some with the right two lowest bits, and kind 3 with no number of
/// any kind.
fn with_other_kinds(rng: &mut Rng, tables: &GameTables) -> Vec<GameTables> {
    let Some(node) = node_of_kind(rng, &tables.fields, |_| true) else {
        return Vec::new();
    };
    let old = tables.fields.kinds[node];
    let kinds = [3, old + 4, old | 1 << 32, old | 1 << 62, u64::MAX];
    let mut refused: Vec<GameTables> = kinds
        .map(|kind| changed(tables, |tables| tables.fields.kinds[node] = kind))
        .into();
    refused.push(changed(tables, |tables| {
        let fields = &mut tables.fields;
        fields.kinds[node] = 3;
        fields.sets[node] = 0;
        fields.chance_moves[node] = 0;
        fields.payoffs[0][node] = 0;
        fields.payoffs[1][node] = 0;
    }));
    refused
}

fn with_lacking_numbers(rng: &mut Rng, tables: &GameTables) -> Vec<GameTables> {
    let mut refused = Vec::new();
    for (list, width, kind) in KIND_LISTS {
        for other in [LEAF, DECISION, CHANCE] {
            let node = node_of_kind(rng, &tables.fields, |here| here == other && here != kind);
            if let Some(node) = node {
                let number = rng.between(1, (1 << width) - 1);
                let change = |tables: &mut GameTables| list(&mut tables.fields)[node] = number;
                refused.push(changed(tables, change));
            }
        }
    }
    for player in 0..2 {
        for kind in [DECISION, CHANCE] {
            if let Some(node) = node_of_kind(rng, &tables.fields, |here| here == kind) {
                let payoff = if rng.percent(50) { -1 } else { 1 };
                let change = |tables: &mut GameTables| tables.fields.payoffs[player][node] = payoff;
                refused.push(changed(tables, change));
            }
        }
    }
    refused
}

/// Each of the ten lists one entry longer, one shorter and empty.
fn with_unlike_lengths(tables: &GameTables) -> Vec<GameTables> {
    let unsigned: [List; 8] = [
        |fields| &mut fields.players,
        |fields| &mut fields.set_moves,
        |fields| &mut fields.kinds,
        |fields| &mut fields.parents,
        |fields| &mut fields.moves,
        |fields| &mut fields.weights,
        |fields| &mut fields.sets,
        |fields| &mut fields.chance_moves,
    ];
    let mut refused = Vec::new();
    for list in unsigned {
        let lengths = other_lengths(list(&mut tables.fields.clone()).len());
        for length in lengths {
            let change = |tables: &mut GameTables| list(&mut tables.fields).resize(length, 0);
            refused.push(changed(tables, change));
        }
    }
    for player in 0..2 {
        for length in other_lengths(tables.fields.payoffs[player].len()) {
            let change = |tables: &mut GameTables| tables.fields.payoffs[player].resize(length, 0);
            refused.push(changed(tables, change));
        }
    }
    refused
}

fn other_lengths(length: usize) -> Vec<usize> {
    match length {
        0 => vec![1],
        1 => vec![0, 2],
        _ => vec![0, length - 1, length + 1],
    }
}

/// A node of some kind, drawn at random.
fn node_of_kind(rng: &mut Rng, fields: &Fields, kind: impl Fn(u64) -> bool) -> Option<usize> {
    let nodes = fields.kinds.iter().enumerate();
    let nodes: Vec<usize> = nodes
        .filter(|(_, &here)| kind(here))
        .map(|(node, _)| node)
        .collect();
    rng.pick(&nodes).copied()
}
