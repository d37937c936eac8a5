//! Small games by brute force: every pure strategy, summed over the leaves.

use crate::form::gain_count;
use crate::game::{Game, Leaf, Move, Player};
use crate::plan::Plan;
use crate::verdict::{Deviation, Verdict};

/// All pure strategies of a player, one move for each of his sets rising, or
/// nothing where there are more than `limit`.
pub fn pure_strategies(game: &Game, player: Player, limit: usize) -> Option<Vec<Vec<Move>>> {
    let mut strategies = vec![Vec::new()];
    for set in game.sets_of(player) {
        let moves = game.sets()[set].moves;
        if strategies.len().saturating_mul(moves) > limit {
            return None;
        }
        let with_set = |strategy: &Vec<Move>| with_each_move(strategy, set, moves);
        strategies = strategies.iter().flat_map(with_set).collect();
    }
    (strategies.len() <= limit).then_some(strategies)
}

fn with_each_move(strategy: &[Move], set: usize, moves: usize) -> Vec<Vec<Move>> {
    let longer = |number| [strategy, &[Move { set, number }]].concat();
    (0..moves).map(longer).collect()
}

/// What a pure strategy earns against the other's plan, over D0 × the other's D.
pub fn earnings(plan: &Plan, player: Player, strategy: &[Move]) -> i128 {
    earned_along(&meetings(plan, player), strategy)
}

/// The most that a pure strategy earns, or nothing where there are too many.
pub fn best_earnings(plan: &Plan, player: Player, limit: usize) -> Option<i128> {
    let strategies = pure_strategies(plan.game(), player, limit)?;
    let met = meetings(plan, player);
    let earned = strategies.iter().map(|moves| earned_along(&met, moves));
    earned.max()
}

/// What a move is worth: the most that the leaves behind it earn when every own
/// move after it follows one pure strategy.
pub fn move_worth(plan: &Plan, player: Player, choice: Move, limit: usize) -> Option<i128> {
    let strategies = pure_strategies(plan.game(), player, limit)?;
    let behind: Vec<Meeting> = meetings(plan, player)
        .into_iter()
        .filter_map(|leaf| leaf.after(choice))
        .collect();
    let earned = strategies.iter().map(|moves| earned_along(&behind, moves));
    earned.max()
}

/// The lowest-numbered worthiest move of each of the player's sets, rising.
pub fn worthiest_moves(plan: &Plan, player: Player, limit: usize) -> Option<Vec<Move>> {
    let sets = plan.game().sets_of(player).into_iter();
    sets.map(|set| worthiest_move(plan, player, set, limit))
        .collect()
}

/// The verdict by brute force, or nothing where a player has too many strategies.
pub fn verdict(plan: &Plan, limit: usize) -> Option<Verdict> {
    for player in Player::BOTH {
        let best = best_earnings(plan, player, limit)?;
        let gain = gain_count(plan, player, best);
        if gain > 0 {
            let moves = worthiest_moves(plan, player, limit)?;
            return Some(Verdict::Deviation(Deviation {
                player,
                gain,
                moves,
            }));
        }
    }
    Some(Verdict::Accepted)
}

/// Whether no pure strategy of either player gains more than so many thousandths of a payoff
/// point, or nothing where a player has too many strategies.
pub fn passes(plan: &Plan, tolerance: u16, limit: usize) -> Option<bool> {
    let allowed = i128::from(plan.value_base()) * i128::from(tolerance);
    for player in Player::BOTH {
        let best = best_earnings(plan, player, limit)?;
        if gain_count(plan, player, best) * 1_000 > allowed {
            return Some(false);
        }
    }
    Some(true)
}

fn worthiest_move(plan: &Plan, player: Player, set: usize, limit: usize) -> Option<Move> {
    let mut best: Option<(i128, Move)> = None;
    for number in 0..plan.game().sets().get(set)?.moves {
        let choice = Move { set, number };
        let worth = move_worth(plan, player, choice, limit)?;
        if best.is_none_or(|(most, _)| worth > most) {
            best = Some((worth, choice));
        }
    }
    best.map(|(_, choice)| choice)
}

/// A leaf as a player's strategies meet it.
struct Meeting {
    /// The player's own moves to the leaf.
    own: Vec<Move>,
    /// Chance weight × other's plan weight × the player's payoff.
    earned: i128,
}

impl Meeting {
    /// The leaf with only those own moves that come after `choice`, if it lies
    /// behind that move.
    fn after(self, choice: Move) -> Option<Meeting> {
        let place = self.own.iter().position(|&own| own == choice)?;
        Some(Meeting {
            own: self.own[place + 1..].to_vec(),
            earned: self.earned,
        })
    }
}

fn meetings(plan: &Plan, player: Player) -> Vec<Meeting> {
    let game = plan.game();
    let other = player.other();
    let meeting = |leaf: &Leaf| {
        let against = plan.weights(other)[leaf.sequences[other.index()]];
        let payoff = leaf.payoffs[player.index()];
        Some(Meeting {
            own: game.own_sequence(player, leaf.node).ok()?,
            earned: i128::from(leaf.weight) * i128::from(against) * i128::from(payoff),
        })
    };
    game.leaves().iter().filter_map(meeting).collect()
}

/// What those leaves earn whose own moves are all moves of the strategy.
fn earned_along(met: &[Meeting], strategy: &[Move]) -> i128 {
    let follows = |leaf: &&Meeting| leaf.own.iter().all(|choice| strategy.contains(choice));
    met.iter().filter(follows).map(|leaf| leaf.earned).sum()
}
