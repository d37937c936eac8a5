//! Plan pairs that fit a game.

use crate::rng::Rng;
use crate::shape::random_count;
use crate::tables::PlanWeights;
use reference::game::{Game, Move, Player};
use reference::limits::LARGEST;
use std::collections::BTreeMap;

/// A random plan pair with the given D1 and D2.
pub fn random_plan(rng: &mut Rng, game: &Game, denominators: [u64; 2]) -> PlanWeights {
    let weights = Player::BOTH.map(|player| {
        let denominator = denominators[player.index()];
        realize(game, player, denominator, |_, weight, moves| {
            random_split(rng, weight, moves)
        })
    });
    PlanWeights { weights }
}

/// A random plan pair whose D and weights are multiples of some number, player by player.
pub fn random_multiple_plan(rng: &mut Rng, game: &Game) -> PlanWeights {
    let denominators = [random_count(rng), random_count(rng)];
    let factors = denominators.map(|denominator| rng.between(1, LARGEST / denominator));
    random_plan(rng, game, denominators).scaled(factors)
}

/// A random pair of pure strategies, with D1 = D2 = 1.
pub fn random_pure_plan(rng: &mut Rng, game: &Game) -> PlanWeights {
    let weights = Player::BOTH.map(|player| {
        realize(game, player, 1, |_, weight, moves| {
            pure_split(rng.below(moves), weight, moves)
        })
    });
    PlanWeights { weights }
}

/// The pair that shares each weight out as evenly as whole numbers allow.
pub fn even_plan(game: &Game, denominators: [u64; 2]) -> PlanWeights {
    let weights = Player::BOTH.map(|player| {
        let denominator = denominators[player.index()];
        realize(game, player, denominator, |_, weight, moves| {
            even_split(weight, moves)
        })
    });
    PlanWeights { weights }
}

/// The weights of a pure strategy, given as one move for each of the sets.
pub fn pure_weights(game: &Game, player: Player, strategy: &[Move]) -> Vec<u64> {
    let taken: BTreeMap<usize, usize> = strategy.iter().map(|own| (own.set, own.number)).collect();
    realize(game, player, 1, |set, weight, moves| {
        pure_split(taken[&set], weight, moves)
    })
}

/// Weights by sequence number, where `split` shares the weight that leads to a
/// set out among its moves.
fn realize(
    game: &Game,
    player: Player,
    denominator: u64,
    mut split: impl FnMut(usize, u64, usize) -> Vec<u64>,
) -> Vec<u64> {
    let mut weights = vec![0; game.sequence_count(player)];
    weights[0] = denominator;
    for set in sets_from_the_root(game, player) {
        let leading = game.leading_sequence_number(set).unwrap_or(0);
        let shares = split(set, weights[leading], game.sets()[set].moves);
        for (number, share) in shares.into_iter().enumerate() {
            if let Ok(sequence) = game.move_sequence(Move { set, number }) {
                weights[sequence] = share;
            }
        }
    }
    weights
}

/// The player's sets, each after those that lead to it.
fn sets_from_the_root(game: &Game, player: Player) -> Vec<usize> {
    let length = |&set: &usize| game.leading_sequence(set).map_or(0, |list| list.len());
    let mut sets = game.sets_of(player);
    sets.sort_by_cached_key(length);
    sets
}

fn random_split(rng: &mut Rng, weight: u64, moves: usize) -> Vec<u64> {
    match rng.below(4) {
        0 => pure_split(rng.below(moves), weight, moves),
        1 => even_split(weight, moves),
        _ => rng.shares(weight, moves, 0),
    }
}

fn pure_split(taken: usize, weight: u64, moves: usize) -> Vec<u64> {
    let share = |number| if number == taken { weight } else { 0 };
    (0..moves).map(share).collect()
}

fn even_split(weight: u64, moves: usize) -> Vec<u64> {
    let count = moves.max(1) as u64;
    let share = |number| weight / count + u64::from(number < weight % count);
    (0..count).map(share).collect()
}
