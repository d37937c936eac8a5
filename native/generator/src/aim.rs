//! Files damaged so that a given refusal is the first one that applies. Each
//! gives nothing where the game or plan offers no place for the damage.

mod changes;
mod rebuild;

use crate::damage::extend;
use crate::edit::{put_bits, EDITION, NODES, ROOT_WEIGHT};
use crate::rng::Rng;
use crate::tables::{GameTables, PlanWeights};
use reference::game::Game;
use reference::plan::Plan;
use reference::Refusal;

/// A game file that gets `refusal`, one of 1 to 13.
pub fn aim_at_game(rng: &mut Rng, game: &Game, refusal: Refusal) -> Option<Vec<u8>> {
    let mut file = GameTables::of(game).bytes().ok()?;
    let changes = match refusal {
        1 => return Some(file[..rng.below(5)].to_vec()),
        2 => vec![(EDITION, rng.between_but(0, 15, 1))],
        3 => vec![(NODES, 0), (ROOT_WEIGHT, 0)],
        4 if rng.percent(25) => return Some(extend(rng, &file)),
        4 if rng.percent(25) => {
            let length = rng.between(5, file.len() as u64 - 1) as usize;
            return Some(file[..length].to_vec());
        }
        4 => changes::count_changes(rng, game),
        5 => changes::set_entry_changes(rng, game),
        6 => changes::kind_and_zero_changes(rng, game),
        7 => changes::payload_changes(rng, game),
        8 => changes::parent_changes(rng, game),
        9 if rng.percent(25) => return rebuild::add_second_child(rng, game),
        9 => changes::child_changes(rng, game),
        10 => changes::weight_changes(rng, game),
        11 => return rebuild::lengthen_path(game),
        12 => return rebuild::add_unmet_set(rng, game),
        13 => return rebuild::break_recall(rng, game),
        _ => return None,
    };
    let &(field, value) = rng.pick(&changes)?;
    put_bits(&mut file, field, value);
    Some(file)
}

/// A plan file that gets `refusal`, one of 14 to 16.
pub fn aim_at_plan(rng: &mut Rng, plan: &Plan, refusal: Refusal) -> Option<Vec<u8>> {
    let mut file = PlanWeights::of(plan).bytes().ok()?;
    let changes = match refusal {
        14 if rng.percent(50) => return Some(extend(rng, &file)),
        14 => return Some(file[..rng.below(file.len())].to_vec()),
        15 => changes::plan_header_changes(rng, plan),
        16 => changes::plan_weight_changes(rng, plan),
        _ => return None,
    };
    let &(field, value) = rng.pick(&changes)?;
    put_bits(&mut file, field, value);
    Some(file)
}
