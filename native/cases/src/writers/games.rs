//! The cases of the game writer.

use super::small::{small_game, CHANCE, DECISION, LEAF, LENGTH};
use super::{case, Case, Input};
use generator::named::study_game;
use generator::tables::{GameTables, Place};
use reference::game::Player;
use reference::writer::Fields;

/// The buffers lent where nothing is to be written are longer than the file would be.
const ROOM: usize = LENGTH + 3;

type List = fn(&mut Fields) -> &mut Vec<u64>;
type SignedList = fn(&mut Fields) -> &mut Vec<i64>;

const LISTS: [(&str, List); 8] = [
    ("set-players", |fields| &mut fields.players),
    ("set-moves", |fields| &mut fields.set_moves),
    ("kinds", |fields| &mut fields.kinds),
    ("parents", |fields| &mut fields.parents),
    ("moves", |fields| &mut fields.moves),
    ("weights", |fields| &mut fields.weights),
    ("node-sets", |fields| &mut fields.sets),
    ("chance-moves", |fields| &mut fields.chance_moves),
];

const SIGNED_LISTS: [(&str, SignedList); 2] = [
    ("payoffs1", |fields| &mut fields.payoffs[0]),
    ("payoffs2", |fields| &mut fields.payoffs[1]),
];

pub fn cases() -> Vec<Case> {
    let mut cases = written();
    cases.extend(wide_numbers());
    cases.extend(wide_payoffs());
    cases.extend(other_kinds());
    cases.extend(lacking_numbers());
    cases.extend(unlike_lengths());
    cases.extend(short_buffers());
    cases
}

/// The small game with a change.
fn small_with(change: impl FnOnce(&mut GameTables)) -> Input {
    let mut tables = small_game();
    change(&mut tables);
    Input::Game(tables)
}

/// Fields that fit: document 01's game, the largest numbers, and fields of no game.
fn written() -> Vec<Case> {
    let no_game = || {
        let mut tables = GameTables::new(0);
        tables.add_set(Player::Two, 0);
        tables.add_decision(Place::new(7, 9, 0), 300);
        Input::Game(tables)
    };
    vec![
        case(0, "study-game", 80, Input::Game(study_game())),
        case(0, "study-game-longer", 88, Input::Game(study_game())),
        case(0, "small-game", LENGTH, Input::Game(small_game())),
        case(0, "no-entries", 5, Input::Game(GameTables::new(0))),
        case(0, "no-entries-longer", 9, Input::Game(GameTables::new(7))),
        case(0, "no-game", 14, no_game()),
        case(0, "largest-numbers", ROOM, small_with(largest)),
        case(0, "smallest-numbers", LENGTH, small_with(smallest)),
    ]
}

/// The largest number of each field, and the smallest payoffs.
fn largest(tables: &mut GameTables) {
    tables.root_weight = 4_095;
    let fields = &mut tables.fields;
    fields.players.fill(1);
    fields.set_moves.fill(127);
    fields.parents.fill(4_095);
    fields.moves.fill(63);
    fields.weights.fill(4_095);
    fields.sets[DECISION] = 4_095;
    fields.chance_moves[CHANCE] = 127;
    fields.payoffs[0][LEAF] = 32_767;
    fields.payoffs[1][LEAF] = -32_768;
}

/// 0 in each field.
fn smallest(tables: &mut GameTables) {
    tables.root_weight = 0;
    let fields = &mut tables.fields;
    for (_, list) in LISTS {
        list(fields).fill(0);
    }
    for (_, list) in SIGNED_LISTS {
        list(fields).fill(0);
    }
}

/// 17: a number too large for its field, by one, or with the right lowest bits, or as
/// large as can be.
fn wide_numbers() -> Vec<Case> {
    let places = [
        (1, 2),
        (0, 128),
        (3, 4),
        (LEAF, 4_096),
        (LEAF, 64),
        (LEAF, 4_096),
        (DECISION, 4_096),
        (CHANCE, 128),
    ];
    let mut cases = Vec::new();
    for root_weight in [4_096, 4_101, u64::MAX] {
        let input = small_with(|tables| tables.root_weight = root_weight);
        cases.push(case(17, format!("root-weight-{root_weight}"), ROOM, input));
    }
    for ((name, list), (place, least)) in LISTS.into_iter().zip(places) {
        let old = list(&mut small_game().fields)[place];
        let mut numbers = vec![least, least + old, old | 1 << 32, u64::MAX];
        numbers.dedup();
        for number in numbers {
            let input = small_with(|tables| list(&mut tables.fields)[place] = number);
            cases.push(case(17, format!("{name}-{number}"), ROOM, input));
        }
    }
    cases
}

/// 17: payoffs too large and too small.
fn wide_payoffs() -> Vec<Case> {
    let payoffs = [
        ("32768", 32_768),
        ("minus-32769", -32_769),
        ("65536", 65_536),
        ("minus-65536", -65_536),
        ("largest", i64::MAX),
        ("smallest", i64::MIN),
    ];
    let mut cases = Vec::new();
    for (name, list) in SIGNED_LISTS {
        for (size, payoff) in payoffs {
            let input = small_with(|tables| list(&mut tables.fields)[LEAF] = payoff);
            cases.push(case(17, format!("{name}-{size}"), ROOM, input));
        }
    }
    cases
}

/// 17: kind 3, even with no other number.
fn other_kinds() -> Vec<Case> {
    let nodes = [("leaf", LEAF), ("decision", DECISION), ("chance", CHANCE)];
    let mut cases: Vec<Case> = nodes
        .into_iter()
        .map(|(name, node)| {
            let input = small_with(|tables| tables.fields.kinds[node] = 3);
            case(17, format!("kind-3-for-{name}"), ROOM, input)
        })
        .collect();
    let mut bare = GameTables::new(1);
    bare.add_leaf(bare.root(), [0, 0]);
    bare.fields.kinds[0] = 3;
    cases.push(case(17, "kind-3-alone", ROOM, Input::Game(bare)));
    cases
}

/// 17: a number that the node's kind lacks.
fn lacking_numbers() -> Vec<Case> {
    let set: List = |fields| &mut fields.sets;
    let moves: List = |fields| &mut fields.chance_moves;
    let unsigned = [
        ("leaf-with-set", set, LEAF),
        ("chance-with-set", set, CHANCE),
        ("leaf-with-chance-moves", moves, LEAF),
        ("decision-with-chance-moves", moves, DECISION),
    ];
    let mut cases = Vec::new();
    for (title, list, node) in unsigned {
        let input = small_with(|tables| list(&mut tables.fields)[node] = 1);
        cases.push(case(17, title, ROOM, input));
    }
    for (name, list) in SIGNED_LISTS {
        for (kind, node) in [("decision", DECISION), ("chance", CHANCE)] {
            let input = small_with(|tables| list(&mut tables.fields)[node] = -1);
            cases.push(case(17, format!("{kind}-with-{name}"), ROOM, input));
        }
    }
    cases
}

/// 17: one of the ten lists an entry shorter, or an entry longer.
fn unlike_lengths() -> Vec<Case> {
    let mut cases = Vec::new();
    let mut add = |name: &str, shorten: &dyn Fn(&mut Fields), lengthen: &dyn Fn(&mut Fields)| {
        let shorter = small_with(|tables| shorten(&mut tables.fields));
        let longer = small_with(|tables| lengthen(&mut tables.fields));
        cases.push(case(17, format!("{name}-one-less"), ROOM, shorter));
        cases.push(case(17, format!("{name}-one-more"), ROOM, longer));
    };
    for (name, list) in LISTS {
        let shorten = |fields: &mut Fields| {
            list(fields).pop();
        };
        add(name, &shorten, &|fields| list(fields).push(0));
    }
    for (name, list) in SIGNED_LISTS {
        let shorten = |fields: &mut Fields| {
            list(fields).pop();
        };
        add(name, &shorten, &|fields| list(fields).push(0));
    }
    cases
}

/// 18, and 17 before it.
fn short_buffers() -> Vec<Case> {
    let too_large = || small_with(|tables| tables.root_weight = 4_096);
    vec![
        case(18, "study-game-one-short", 79, Input::Game(study_game())),
        case(18, "study-game-no-room", 0, Input::Game(study_game())),
        case(
            18,
            "small-game-one-short",
            LENGTH - 1,
            Input::Game(small_game()),
        ),
        case(
            18,
            "no-entries-one-short",
            4,
            Input::Game(GameTables::new(0)),
        ),
        case(17, "before-18", LENGTH - 1, too_large()),
        case(17, "before-18-no-room", 0, too_large()),
    ]
}
