//! The verdict on a plan pair.

use crate::form::{best_response, gain_count};
use crate::game::{Move, Player};
use crate::plan::Plan;

#[derive(Clone, Debug, PartialEq, Eq)]
pub enum Verdict {
    Accepted,
    Deviation(Deviation),
}

/// A pure strategy that earns its player more than his plan does.
#[derive(Clone, Debug, PartialEq, Eq)]
pub struct Deviation {
    pub player: Player,
    /// Over D0 × D1 × D2, above zero.
    pub gain: i128,
    /// One move for each of the player's sets, rising.
    pub moves: Vec<Move>,
}

/// Accepted, or the deviation of the first player who can gain.
pub fn verdict(plan: &Plan) -> Verdict {
    let mut deviations = Player::BOTH.iter().filter_map(|&player| {
        let best = best_response(plan, player);
        let gain = gain_count(plan, player, best.count());
        (gain > 0).then_some(Deviation {
            player,
            gain,
            moves: best.moves,
        })
    });
    match deviations.next() {
        Some(deviation) => Verdict::Deviation(deviation),
        None => Verdict::Accepted,
    }
}
