//! House tolerance, document 02, W-203: whether no strategy gains more than a stated amount.

use crate::form::{best_response, gain_count};
use crate::game::Player;
use crate::plan::Plan;

/// Whether neither player has a strategy whose gain lies above so many thousandths of a payoff
/// point. A gain that is equal passes.
pub fn passes(plan: &Plan, tolerance: u16) -> bool {
    let most = i128::from(tolerance) * i128::from(plan.value_base());
    let mut players = Player::BOTH.iter();
    players.all(|&player| 1_000 * largest_gain(plan, player) <= most)
}

/// The most that a strategy gains the player, over D0 × D1 × D2. A mixed strategy earns a mean of
/// what pure ones earn, so none gains more than the best pure one.
pub fn largest_gain(plan: &Plan, player: Player) -> i128 {
    gain_count(plan, player, best_response(plan, player).count())
}

/// The smallest whole number of thousandths of a payoff point that is not below a gain.
pub fn thousandths(gain: i128, base: u64) -> i128 {
    // Rounded up: the opposite is rounded down.
    -(-1_000 * gain).div_euclid(base.into())
}
