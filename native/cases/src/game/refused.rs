//! Game files made for one refusal each, 1 to 13.

use super::recall::{
    earlier_move_forgotten, last_move_forgotten, longer_with_the_same_end, own_move_or_none,
    set_forgotten,
};
use super::{made_for, Case};
use generator::edit::{
    changed, node_field, set_moves, set_player, Field, CHANCE_MOVES, CHANCE_ZEROS, DECISION_SET,
    DECISION_ZEROS, EDITION, KIND, MOVE, NODES, PARENT, ROOT_WEIGHT, SETS, WEIGHT,
};
use generator::large::most_bytes;
use generator::named::{
    long_path, own_chain, set_below_itself, study_game, wide_chance, wide_decision,
};
use generator::poker::kuhn;
use generator::tables::{GameTables, Place};
use reference::game::Player;
use reference::Refusal;

pub fn cases() -> Result<Vec<Case>, Refusal> {
    let study = study_game().bytes()?;
    let kuhn = kuhn().bytes()?;
    let mut cases = wrong_headers(&study);
    cases.extend(wrong_lengths(&study)?);
    cases.extend(wrong_entries(&study)?);
    cases.extend(wrong_kinds_and_zeros(&study, &kuhn));
    cases.extend(wrong_payloads(&study, &kuhn)?);
    cases.extend(wrong_parents(&study, &kuhn));
    cases.extend(wrong_children(&study, &kuhn)?);
    cases.extend(wrong_weights(&study)?);
    cases.extend(wrong_paths_and_sets()?);
    cases.extend(broken_recall(&study)?);
    Ok(cases)
}

/// A field of a node of the study game, which has three sets.
fn study_node(node: usize, within: Field) -> Field {
    node_field(3, node, within)
}

/// A field of a node of Kuhn poker, which has twelve sets and a chance root.
fn kuhn_node(node: usize, within: Field) -> Field {
    node_field(12, node, within)
}

/// 1 to 3.
fn wrong_headers(study: &[u8]) -> Vec<Case> {
    let short = [("empty", vec![]), ("four-bytes", study[..4].to_vec())];
    let edition = [
        ("five-zero-bytes", vec![0; 5]),
        ("edition-0", changed(study, EDITION, 0)),
        ("edition-15", changed(study, EDITION, 15)),
    ];
    let zero = [
        ("no-nodes", vec![0x10, 0x00, 0x00, 0x00, 0x01]),
        ("no-root-weight", changed(study, ROOT_WEIGHT, 0)),
    ];
    let short = made_for(1, short).into_iter();
    let edition = made_for(2, edition).into_iter();
    short.chain(edition).chain(made_for(3, zero)).collect()
}

/// 4.
fn wrong_lengths(study: &[u8]) -> Result<Vec<Case>, Refusal> {
    let files = [
        ("header-alone", study[..5].to_vec()),
        ("one-byte-less", study[..study.len() - 1].to_vec()),
        ("one-byte-more", [study, &[0]].concat()),
        ("one-set-more", changed(study, SETS, 4)),
        ("one-node-less", changed(study, NODES, 8)),
        ("longer-than-any", [most_bytes().bytes()?, vec![0]].concat()),
    ];
    Ok(made_for(4, files))
}

/// 5. Of 65 moves the last has no number that fits its field.
fn wrong_entries(study: &[u8]) -> Result<Vec<Case>, Refusal> {
    let wide = wide_decision(64).bytes()?;
    let files = [
        ("no-moves-in-a-set", changed(study, set_moves(2), 0)),
        ("65-moves-in-a-set", changed(&wide, set_moves(0), 65)),
        ("127-moves-in-a-set", changed(study, set_moves(0), 127)),
    ];
    Ok(made_for(5, files))
}

/// 6.
fn wrong_kinds_and_zeros(study: &[u8], kuhn: &[u8]) -> Vec<Case> {
    let decision_bit = |bit: u64| changed(study, study_node(4, DECISION_ZEROS), bit);
    let chance_bit = |bit: u64| changed(kuhn, kuhn_node(0, CHANCE_ZEROS), bit);
    let files = [
        ("kind-3", changed(study, study_node(8, KIND), 3)),
        ("first-zero-bit-of-decision", decision_bit(1 << 19)),
        ("last-zero-bit-of-decision", decision_bit(1)),
        ("first-zero-bit-of-chance", chance_bit(1 << 24)),
        ("last-zero-bit-of-chance", chance_bit(1)),
    ];
    made_for(6, files)
}

/// 7.
fn wrong_payloads(study: &[u8], kuhn: &[u8]) -> Result<Vec<Case>, Refusal> {
    let wide = wide_chance(64).bytes()?;
    let first_node = node_field(0, 0, CHANCE_MOVES);
    let files = [
        (
            "set-number-h",
            changed(study, study_node(4, DECISION_SET), 3),
        ),
        (
            "no-moves-of-chance",
            changed(kuhn, kuhn_node(0, CHANCE_MOVES), 0),
        ),
        ("65-moves-of-chance", changed(&wide, first_node, 65)),
    ];
    Ok(made_for(7, files))
}

/// 8.
fn wrong_parents(study: &[u8], kuhn: &[u8]) -> Vec<Case> {
    let parent = |node, parent| changed(study, study_node(node, PARENT), parent);
    let files = [
        ("root-with-parent", parent(0, 1)),
        ("root-with-move", changed(study, study_node(0, MOVE), 1)),
        ("its-own-parent", parent(3, 3)),
        ("below-a-later-node", parent(3, 4)),
        ("below-no-node", parent(8, 4_095)),
        ("below-a-leaf", parent(3, 2)),
        ("no-such-move", changed(study, study_node(8, MOVE), 2)),
        ("no-such-chance-move", changed(kuhn, kuhn_node(1, MOVE), 6)),
    ];
    made_for(8, files)
}

/// 9.
fn wrong_children(study: &[u8], kuhn: &[u8]) -> Result<Vec<Case>, Refusal> {
    let mut one_more = study_game();
    one_more.add_leaf(Place::new(3, 1, 1), [0, 0]);
    let mut childless = GameTables::new(1);
    childless.add_chance(childless.root(), 1);
    let wide = wide_decision(63).bytes()?;
    let files = [
        ("move-twice-none-missing", one_more.bytes()?),
        ("move-missing-none-twice", changed(study, set_moves(1), 3)),
        (
            "one-twice-one-missing",
            changed(study, study_node(8, MOVE), 0),
        ),
        (
            "chance-move-missing",
            changed(kuhn, kuhn_node(0, CHANCE_MOVES), 7),
        ),
        ("last-of-64-missing", changed(&wide, set_moves(0), 64)),
        ("no-child-at-all", childless.bytes()?),
    ];
    Ok(made_for(9, files))
}

/// 10.
fn wrong_weights(study: &[u8]) -> Result<Vec<Case>, Refusal> {
    let files = [
        ("root-unlike-d0", changed(study, ROOT_WEIGHT, 2)),
        (
            "leaf-without-weight",
            changed(study, study_node(8, WEIGHT), 0),
        ),
        (
            "decision-changes-weight",
            changed(study, study_node(8, WEIGHT), 2),
        ),
        ("chance-sum-too-small", two_shares(4_095, [1, 4_093])?),
        ("chance-sum-too-large", two_shares(4_095, [1, 4_095])?),
        ("chance-share-zero", two_shares(4_095, [0, 4_095])?),
        ("chance-sum-modulo-4096", two_shares(2, [4_095, 3])?),
    ];
    Ok(made_for(10, files))
}

/// A chance root with two leaves of these weights.
fn two_shares(root_weight: u64, weights: [u64; 2]) -> Result<Vec<u8>, Refusal> {
    let mut tables = GameTables::new(root_weight);
    tables.add_chance(tables.root(), 2);
    tables.add_leaf(Place::new(0, 0, weights[0]), [0, 0]);
    tables.add_leaf(Place::new(0, 1, weights[1]), [0, 0]);
    tables.bytes()
}

/// 11 and 12.
fn wrong_paths_and_sets() -> Result<Vec<Case>, Refusal> {
    let long = [
        ("path-of-256-moves", long_path(256).bytes()?),
        ("own-path-of-256-moves", own_chain(256).bytes()?),
    ];
    let mut last_unmet = study_game();
    last_unmet.add_set(Player::Two, 1);
    let unmet = [
        ("first-set-without-node", first_set_unmet().bytes()?),
        ("last-set-without-node", last_unmet.bytes()?),
        ("4095-sets", most_bytes().bytes()?),
    ];
    let long = made_for(11, long).into_iter();
    Ok(long.chain(made_for(12, unmet)).collect())
}

/// A root of set 1, with a leaf below.
fn first_set_unmet() -> GameTables {
    let mut tables = GameTables::new(1);
    tables.add_set(Player::One, 1);
    let met = tables.add_set(Player::One, 1);
    tables.add_decision(tables.root(), met);
    tables.add_leaf(Place::new(0, 0, 1), [0, 0]);
    tables
}

/// 13. Were the study game's last set player 2's, he would forget l or r.
fn broken_recall(study: &[u8]) -> Result<Vec<Case>, Refusal> {
    let files = [
        ("set-below-itself", set_below_itself().bytes()?),
        ("last-move", last_move_forgotten().bytes()?),
        ("earlier-move-only", earlier_move_forgotten().bytes()?),
        ("same-move-of-other-set", set_forgotten().bytes()?),
        ("own-move-or-none", own_move_or_none().bytes()?),
        ("longer-with-same-end", longer_with_the_same_end().bytes()?),
        ("by-player-2", changed(study, set_player(2), 1)),
    ];
    Ok(made_for(13, files))
}
