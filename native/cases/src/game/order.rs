//! Files that break two rules with neighbouring numbers. Where the file has room
//! for it, the rule of the larger number is broken at the earlier place.

use super::Case;
use generator::edit::{
    changed, node_field, set_moves, DECISION_SET, EDITION, KIND, MOVE, NODES, PARENT, ROOT_WEIGHT,
    WEIGHT,
};
use generator::named::{long_path, set_below_itself, study_game};
use reference::game::Player;
use reference::Refusal;

pub struct Pair {
    /// Breaks the rule after the lower one, and none before.
    pub upper: Vec<u8>,
    /// Breaks the lower rule too.
    pub both: Case,
}

pub fn pairs() -> Result<Vec<Pair>, Refusal> {
    let mut pairs = header_pairs(&study_game().bytes()?);
    pairs.extend(record_pairs(&study_game().bytes()?));
    pairs.extend(whole_game_pairs()?);
    Ok(pairs)
}

fn pair(lower: Refusal, title: &'static str, upper: Vec<u8>, file: Vec<u8>) -> Pair {
    let both = Case {
        refusal: lower,
        title,
        file,
    };
    Pair { upper, both }
}

/// 1 and 2 to 4 and 5, over the study game.
fn header_pairs(study: &[u8]) -> Vec<Pair> {
    let edition = changed(study, EDITION, 3);
    let no_nodes = changed(study, NODES, 0);
    let longer = [study, &[0]].concat();
    let many_moves = changed(study, set_moves(0), 65);
    let cut_edition = edition[..4].to_vec();
    let edition_no_nodes = changed(&no_nodes, EDITION, 3);
    let longer_no_weight = changed(&longer, ROOT_WEIGHT, 0);
    let cut_many_moves = many_moves[..many_moves.len() - 1].to_vec();
    vec![
        pair(1, "before-02", edition, cut_edition),
        pair(2, "before-03", no_nodes, edition_no_nodes),
        pair(3, "before-04", longer, longer_no_weight),
        pair(4, "before-05", many_moves, cut_many_moves),
    ]
}

/// 5 and 6 to 9 and 10, over the study game.
fn record_pairs(study: &[u8]) -> Vec<Pair> {
    let node = |number, within| node_field(3, number, within);
    let two_changes = |lower, title, early, early_value, late, late_value| {
        let upper = changed(study, early, early_value);
        let both = changed(&upper, late, late_value);
        pair(lower, title, upper, both)
    };
    vec![
        two_changes(5, "before-06", node(0, KIND), 3, set_moves(2), 0),
        two_changes(6, "before-07", node(0, DECISION_SET), 3, node(8, KIND), 3),
        two_changes(7, "before-08", node(0, PARENT), 1, node(4, DECISION_SET), 3),
        two_changes(8, "before-09", node(2, MOVE), 0, node(8, MOVE), 2),
        two_changes(9, "before-10", node(0, WEIGHT), 0, node(8, MOVE), 0),
    ]
}

/// 10 and 11 to 12 and 13.
fn whole_game_pairs() -> Result<Vec<Pair>, Refusal> {
    let mut path = long_path(256);
    let long = path.bytes()?;
    path.add_set(Player::One, 1);
    let long_and_unmet = path.bytes()?;
    let mut unmet = long_path(255);
    unmet.add_set(Player::One, 1);
    let heavier_leaf = changed(&long, node_field(0, 256, WEIGHT), 2);
    let mut forgetful = set_below_itself();
    let recall = forgetful.bytes()?;
    forgetful.add_set(Player::Two, 1);
    let recall_and_unmet = forgetful.bytes()?;
    Ok(vec![
        pair(10, "before-11", long, heavier_leaf),
        pair(11, "before-12", unmet.bytes()?, long_and_unmet),
        pair(12, "before-13", recall, recall_and_unmet),
    ])
}
