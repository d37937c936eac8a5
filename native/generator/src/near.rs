//! Pairs at or near an equilibrium.

use crate::plans::{even_plan, pure_weights, random_plan, random_pure_plan};
use crate::rng::Rng;
use crate::shape::random_count;
use crate::tables::PlanWeights;
use reference::form::best_response;
use reference::game::{Game, Move, Player};
use reference::limits::LARGEST;
use reference::plan::{check_plan, Plan};
use reference::verdict::{verdict, Verdict};
use reference::Refusal;

/// Starts with a random pure pair and lets the player of each deviation change
/// over to the shown strategy, until the pair is accepted or the rounds end.
pub fn pure_equilibrium(rng: &mut Rng, game: &Game, rounds: usize) -> Option<PlanWeights> {
    let mut pair = random_pure_plan(rng, game);
    for _ in 0..rounds {
        let bytes = pair.bytes().ok()?;
        let plan = check_plan(game, &bytes).ok()?;
        match verdict(&plan) {
            Verdict::Accepted => return Some(pair),
            Verdict::Deviation(shown) => {
                let weights = pure_weights(game, shown.player, &shown.moves);
                pair.weights[shown.player.index()] = weights;
            }
        }
    }
    None
}

/// The running sums of best responses to one another, `rounds` times after
/// move 0 everywhere; both denominators are `rounds` + 1. Gives 17 where that
/// would go above 4,095.
pub fn averaged_best_responses(game: &Game, rounds: usize) -> Result<PlanWeights, Refusal> {
    let mut sums = PlanWeights {
        weights: Player::BOTH.map(|player| first_moves(game, player)),
    };
    let mut bytes = sums.bytes()?;
    for _ in 0..rounds {
        let plan = check_plan(game, &bytes)?;
        let answers = Player::BOTH.map(|player| best_weights(&plan, player));
        for (sum, answer) in sums.weights.iter_mut().zip(answers) {
            add(sum, &answer);
        }
        bytes = sums.bytes()?;
    }
    Ok(sums)
}

/// Moves one unit of the player's weight from one move of a set to another, and
/// keeps the plan fitting below both. Nothing where no set allows it.
pub fn shift_one(rng: &mut Rng, plan: &Plan, player: Player) -> Option<PlanWeights> {
    let game = plan.game();
    let mut shift = Shift::new(plan, player);
    let mut sets = game.sets_of(player);
    sets.retain(|&set| game.sets()[set].moves > 1 && !shift.played_moves(set).is_empty());
    let &set = rng.pick(&sets)?;
    let &from = rng.pick(&shift.played_moves(set))?;
    let moves = game.sets()[set].moves;
    let to = Move {
        set,
        number: (from.number + 1 + rng.below(moves - 1)) % moves,
    };
    shift.lower(rng, from)?;
    shift.raise(rng, to)?;
    let mut shifted = PlanWeights::of(plan);
    shifted.weights[player.index()] = shift.weights;
    Some(shifted)
}

/// A random pair, one of averaged best responses and, where it is found, an equilibrium with
/// the pairs that are one unit away from it.
pub fn pairs_near(rng: &mut Rng, game: &Game) -> Vec<PlanWeights> {
    let denominators = [random_count(rng), random_count(rng)];
    let mut pairs = vec![random_plan(rng, game, denominators)];
    let rounds = rng.below(12);
    pairs.extend(averaged_best_responses(game, rounds));
    if let Some(found) = pure_equilibrium(rng, game, 12) {
        let factors = [random_count(rng), random_count(rng)];
        let scaled = found.scaled(factors);
        pairs.extend(shifted_by_one(rng, game, &scaled));
        pairs.push(scaled);
    }
    pairs
}

/// Any pair, before it the same with player 1's best plan, so that only player 2 can gain; a pure
/// one, an even one and one of averaged best responses.
pub fn pairs_of_each_kind(rng: &mut Rng, game: &Game) -> Result<Vec<PlanWeights>, Refusal> {
    let denominators = [random_count(rng), random_count(rng)];
    let drawn = random_plan(rng, game, denominators);
    let mut answered = drawn.clone();
    let bytes = drawn.bytes()?;
    answered.weights[0] = best_weights(&check_plan(game, &bytes)?, Player::One);
    Ok(vec![
        answered,
        drawn,
        random_pure_plan(rng, game),
        even_plan(game, [LARGEST, LARGEST]),
        averaged_best_responses(game, 2)?,
    ])
}

/// A pair with one unit of one player's weight moved, for each player who can.
pub fn shifted_by_one(rng: &mut Rng, game: &Game, pair: &PlanWeights) -> Vec<PlanWeights> {
    let bytes = pair.bytes().unwrap_or_default();
    let Ok(plan) = check_plan(game, &bytes) else {
        return Vec::new();
    };
    let players = Player::BOTH.iter();
    players
        .filter_map(|&player| shift_one(rng, &plan, player))
        .collect()
}

/// A player's weights while units are moved.
struct Shift<'g> {
    game: &'g Game,
    weights: Vec<u64>,
    /// The own sets that each sequence leads to.
    followers: Vec<Vec<usize>>,
}

impl<'g> Shift<'g> {
    fn new(plan: &Plan<'g>, player: Player) -> Self {
        let game = plan.game();
        Shift {
            game,
            weights: plan.weights(player).to_vec(),
            followers: game.followers(player),
        }
    }

    /// The moves of a set that have some weight.
    fn played_moves(&self, set: usize) -> Vec<Move> {
        let moves = (0..self.game.sets()[set].moves).map(|number| Move { set, number });
        let played = |choice: &Move| {
            let sequence = self.game.move_sequence(*choice);
            sequence.is_ok_and(|number| self.weights[number] > 0)
        };
        moves.filter(played).collect()
    }

    /// Takes a unit from a move, and from a move of each set that it leads to.
    fn lower(&mut self, rng: &mut Rng, choice: Move) -> Option<()> {
        let sequence = self.game.move_sequence(choice).ok()?;
        self.weights[sequence] -= 1;
        for set in self.followers[sequence].clone() {
            let next = *rng.pick(&self.played_moves(set))?;
            self.lower(rng, next)?;
        }
        Some(())
    }

    /// Adds a unit to a move, and to a move of each set that it leads to.
    fn raise(&mut self, rng: &mut Rng, choice: Move) -> Option<()> {
        let sequence = self.game.move_sequence(choice).ok()?;
        self.weights[sequence] += 1;
        for set in self.followers[sequence].clone() {
            let number = rng.below(self.game.sets()[set].moves);
            self.raise(rng, Move { set, number })?;
        }
        Some(())
    }
}

/// The weights of the strategy that takes move 0 in every set.
fn first_moves(game: &Game, player: Player) -> Vec<u64> {
    let sets = game.sets_of(player).into_iter();
    let strategy: Vec<Move> = sets.map(|set| Move { set, number: 0 }).collect();
    pure_weights(game, player, &strategy)
}

fn best_weights(plan: &Plan, player: Player) -> Vec<u64> {
    let best = best_response(plan, player);
    pure_weights(plan.game(), player, &best.moves)
}

fn add(sums: &mut [u64], weights: &[u64]) {
    for (sum, weight) in sums.iter_mut().zip(weights) {
        *sum += weight;
    }
}
