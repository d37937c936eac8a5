//! Tolerances to try a plan pair with.

use reference::game::Player;
use reference::plan::Plan;
use reference::tolerance::{largest_gain, thousandths};
use std::collections::BTreeSet;

/// The least and the largest tolerance, and those no more than `reach` away from each gain above
/// 0 in thousandths, rounded up; rising.
pub fn tolerances_near(plan: &Plan, reach: i128) -> Vec<u16> {
    let mut tried = BTreeSet::from([0, u16::MAX]);
    for player in Player::BOTH {
        let gain = largest_gain(plan, player);
        if gain > 0 {
            let nearest = thousandths(gain, plan.value_base());
            let around = nearest - reach..=nearest + reach;
            tried.extend(around.filter_map(|number| u16::try_from(number).ok()));
        }
    }
    tried.into_iter().collect()
}
