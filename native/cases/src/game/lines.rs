//! The lines that `try_game` must write, by the reference implementation.

use super::Case;
use crate::text::{joined, shown};
use reference::game::{check_game, InfoSet, Kind, Node};
use reference::writer::{fields_of, Fields};

/// The answer to a file: `accepted` with N, H and D0, or its refusal.
pub fn check_line(case: &Case) -> String {
    let answer = shown(check_game(&case.file), |game| {
        let (nodes, sets) = (game.nodes().len(), game.sets().len());
        format!("accepted {nodes} {sets} {}", game.root_weight())
    });
    format!("{}: {answer}\n", case.name())
}

/// A heading, then what the game answers for the numbers of its sets and for
/// those of its nodes.
pub fn look_up_lines(case: &Case) -> String {
    let game = check_game(&case.file);
    let game = game.as_ref().map_err(|&refusal| refusal);
    let [sets, nodes] = game.map_or([0, 0], |game| [game.sets().len(), game.nodes().len()]);
    let mut lines = format!("look-ups in {}\n", case.name());
    for number in numbers(sets) {
        let entry = game.and_then(|game| game.sets().get(number).ok_or(17));
        let sequence = game.and_then(|game| game.leading_sequence_number(number));
        let sequence = shown(sequence, |sequence| format!("own sequence {sequence}"));
        lines += &format!("set {number}: {}\n", shown(entry, entry_text));
        lines += &format!("set {number}: {sequence}\n");
    }
    for number in numbers(nodes) {
        let record = game.and_then(|game| game.nodes().get(number).ok_or(17));
        lines += &format!("node {number}: {}\n", shown(record, record_text));
    }
    lines
}

/// All fields, each in a buffer of 7s: first with room for 4 sets and 10 nodes,
/// then with 8 entries in the last buffer.
pub fn field_lines(case: &Case) -> String {
    [10, 8].map(|last| field_line(case, last)).concat()
}

fn field_line(case: &Case, last: usize) -> String {
    let game = check_game(&case.file).and_then(|game| match game.nodes().len() <= last {
        true => Ok(game),
        false => Err(18),
    });
    let mut numbers = [4, 4, 10, 10, 10, 10, 10, 10].map(|room| vec![7; room]);
    let mut payoffs = [10, last].map(|room| vec![7; room]);
    if let Ok(game) = &game {
        let fields = fields_of(game);
        put_fields(&mut payoffs, &fields.payoffs);
        put_fields(&mut numbers, &number_fields(fields));
    }
    let answer = shown(game, |game| {
        let (nodes, sets) = (game.nodes().len(), game.sets().len());
        format!("given {nodes} {sets} {}", game.root_weight())
    });
    let numbers = numbers.map(|buffer| joined(&buffer, |number| number.to_string()));
    let payoffs = payoffs.map(|buffer| joined(&buffer, |payoff| payoff.to_string()));
    let columns = numbers.iter().chain(&payoffs);
    let named = NAMES.iter().zip(columns);
    let named: String = named
        .map(|(name, column)| format!(" {name}{column}"))
        .collect();
    format!("fields: {answer}{named}\n")
}

/// The fields without a sign, in the order of the buffers.
fn number_fields(fields: Fields) -> [Vec<u64>; 8] {
    [
        fields.players,
        fields.set_moves,
        fields.kinds,
        fields.parents,
        fields.moves,
        fields.weights,
        fields.sets,
        fields.chance_moves,
    ]
}

/// Puts each field to the front of its buffer.
fn put_fields<T: Copy>(buffers: &mut [Vec<T>], fields: &[Vec<T>]) {
    for (buffer, field) in buffers.iter_mut().zip(fields) {
        buffer[..field.len()].copy_from_slice(field);
    }
}

const NAMES: [&str; 10] = [
    "set-players",
    "set-moves",
    "kinds",
    "parents",
    "moves",
    "weights",
    "node-sets",
    "chance-moves",
    "payoffs1",
    "payoffs2",
];

/// The numbers below a count, the count itself and 2^64 - 1.
fn numbers(count: usize) -> impl Iterator<Item = usize> {
    (0..=count).chain([usize::MAX])
}

fn entry_text(set: &InfoSet) -> String {
    format!("player bit {} moves {}", set.player.index(), set.moves)
}

fn record_text(node: &Node) -> String {
    let place = format!(
        "parent {} move {} weight {}",
        node.parent, node.move_number, node.weight
    );
    match node.kind {
        Kind::Leaf { payoffs } => format!("leaf {place} payoffs {} {}", payoffs[0], payoffs[1]),
        Kind::Decision { set } => format!("decision {place} set {set}"),
        Kind::Chance { moves } => format!("chance {place} moves {moves}"),
    }
}
