//! Plan files each made for one of refusals 14 to 16 out of one that fits.

use crate::edit::{plan_weight, put_bits, Field, D1, D2, EDITION, PLAN_ZEROS};
use crate::rng::Rng;
use crate::tables::PlanWeights;
use reference::game::{Game, Move, Player};
use reference::limits::LARGEST;
use reference::plan::Plan;

/// 14: a byte more or less, the header alone or cut, lengths by another filling, and
/// the weights in two bytes each.
pub fn wrong_lengths(plan: &Plan) -> Vec<Vec<u8>> {
    let Ok(file) = PlanWeights::of(plan).bytes() else {
        return Vec::new();
    };
    let (right, moves) = (file.len(), plan.weights_in_file_order().len());
    let unfilled = 4 + 12 * moves / 8;
    let lengths = [0, 3, 4, unfilled, right - 1, right + 1, right + 2];
    let wide = [4 + 2 * moves, 4 + 12 * moves, 5 + 12 * moves / 8];
    let mut lengths: Vec<usize> = lengths.into_iter().chain(wide).collect();
    lengths.retain(|&length| length != right);
    lengths.sort();
    lengths.dedup();
    let resized = |length| {
        let mut damaged = file.clone();
        damaged.resize(length, 0);
        damaged
    };
    lengths.into_iter().map(resized).collect()
}

/// 15: another edition, D1 or D2 zero, and each header and filling bit by itself.
pub fn wrong_headers(plan: &Plan) -> Vec<Vec<u8>> {
    let Ok(file) = PlanWeights::of(plan).bytes() else {
        return Vec::new();
    };
    let mut changes = vec![(EDITION, 0), (EDITION, 2), (EDITION, 9), (D1, 0), (D2, 0)];
    changes.extend((0..4).map(|bit| (PLAN_ZEROS, 1 << bit)));
    let end = plan_weight(plan.weights_in_file_order().len()).position;
    let width = 8 * file.len() - end;
    let filling = Field {
        position: end,
        width,
    };
    changes.extend((0..width).map(|bit| (filling, 1 << bit)));
    let changed = |(field, value)| {
        let mut damaged = file.clone();
        put_bits(&mut damaged, field, value);
        damaged
    };
    changes.into_iter().map(changed).collect()
}

/// 16: one of each way not to fit that the plan has room for.
pub fn misfits(rng: &mut Rng, plan: &Plan) -> Vec<Vec<u8>> {
    let mut misfits = Vec::new();
    for player in Player::BOTH {
        let own = OwnSets::of(plan.game(), player);
        let changes = [
            off_by_one(rng, plan, player),
            other_denominator(rng, plan, player),
            too_much(rng, plan, &own, 4_096),
            too_much(rng, plan, &own, 8_192),
            too_much(rng, plan, &own, 65_536),
            too_much_behind_zero(rng, plan, &own),
            behind_zero(rng, plan, &own),
            moved_to_another_set(rng, plan, &own),
        ];
        let files = changes.into_iter().flatten();
        misfits.extend(files.filter_map(|changed| changed.bytes().ok()));
    }
    misfits
}

/// A set with the sequences that matter to it.
struct OwnSet {
    leading: usize,
    first: usize,
    moves: usize,
    /// Whether no other set comes after one of its moves.
    last: bool,
}

/// A player's sets.
struct OwnSets {
    player: Player,
    sets: Vec<OwnSet>,
}

impl OwnSets {
    fn of(game: &Game, player: Player) -> OwnSets {
        let mut leads_on = vec![false; game.sequence_count(player)];
        let mut sets = Vec::new();
        for set in game.sets_of(player) {
            let leading = game.leading_sequence_number(set).unwrap_or(0);
            let first = game.move_sequence(Move { set, number: 0 }).unwrap_or(0);
            leads_on[leading] = true;
            sets.push(OwnSet {
                leading,
                first,
                moves: game.sets()[set].moves,
                last: true,
            });
        }
        for set in &mut sets {
            let moves = set.first..set.first + set.moves;
            set.last = !leads_on[moves].contains(&true);
        }
        OwnSets { player, sets }
    }

    /// One of the sets that no other follows, with so many moves and such a weight
    /// of the sequence that leads there.
    fn last_set(
        &self,
        rng: &mut Rng,
        plan: &Plan,
        least_moves: usize,
        fits: fn(u64) -> bool,
    ) -> Option<&OwnSet> {
        let weights = plan.weights(self.player);
        let sets = self.sets.iter();
        let sets: Vec<&OwnSet> = sets
            .filter(|set| set.last && set.moves >= least_moves)
            .filter(|set| fits(weights[set.leading]))
            .collect();
        rng.pick(&sets).copied()
    }
}

/// One more or one less for a move.
fn off_by_one(rng: &mut Rng, plan: &Plan, player: Player) -> Option<PlanWeights> {
    let mut changed = PlanWeights::of(plan);
    let moves = changed.weights[player.index()].get_mut(1..)?;
    let number = rng.below(moves.len());
    let weight = moves.get_mut(number)?;
    *weight = match *weight {
        0 => 1,
        LARGEST => LARGEST - 1,
        between if rng.percent(50) => between - 1,
        between => between + 1,
    };
    Some(changed)
}

/// One more or one less for the empty sequence of a player who has a set.
fn other_denominator(rng: &mut Rng, plan: &Plan, player: Player) -> Option<PlanWeights> {
    let mut changed = PlanWeights::of(plan);
    let weights = &mut changed.weights[player.index()];
    if weights.len() == 1 {
        return None;
    }
    weights[0] = match weights[0] {
        1 => 2,
        LARGEST => LARGEST - 1,
        between if rng.percent(50) => between - 1,
        between => between + 1,
    };
    Some(changed)
}

/// A set's moves add up to so much too much, which is 0 in fewer bits; all other sets
/// fit.
fn too_much(rng: &mut Rng, plan: &Plan, own: &OwnSets, excess: u64) -> Option<PlanWeights> {
    let least_moves = excess / LARGEST + 1;
    let set = own.last_set(rng, plan, least_moves as usize, |_| true)?;
    with_more(rng, plan, own.player, set, excess)
}

/// The same at a set reached with weight 0.
fn too_much_behind_zero(rng: &mut Rng, plan: &Plan, own: &OwnSets) -> Option<PlanWeights> {
    let set = own.last_set(rng, plan, 2, |leading| leading == 0)?;
    with_more(rng, plan, own.player, set, 4_096)
}

fn with_more(
    rng: &mut Rng,
    plan: &Plan,
    player: Player,
    set: &OwnSet,
    excess: u64,
) -> Option<PlanWeights> {
    let mut changed = PlanWeights::of(plan);
    let weights = &mut changed.weights[player.index()];
    let mut rest = weights[set.leading] + excess;
    let mut moves: Vec<usize> = (set.first..set.first + set.moves).collect();
    rng.shuffle(&mut moves);
    for sequence in moves {
        weights[sequence] = rest.min(LARGEST);
        rest -= weights[sequence];
    }
    (rest == 0).then_some(changed)
}

/// A set reached with weight 0 has a move of some weight.
fn behind_zero(rng: &mut Rng, plan: &Plan, own: &OwnSets) -> Option<PlanWeights> {
    let set = own.last_set(rng, plan, 1, |leading| leading == 0)?;
    let mut changed = PlanWeights::of(plan);
    let sequence = set.first + rng.below(set.moves);
    changed.weights[own.player.index()][sequence] = rng.between(1, LARGEST);
    Some(changed)
}

/// A unit goes from a move of one set to a move of another, so that the sum of all
/// weights stays.
fn moved_to_another_set(rng: &mut Rng, plan: &Plan, own: &OwnSets) -> Option<PlanWeights> {
    let mut changed = PlanWeights::of(plan);
    let weights = &mut changed.weights[own.player.index()];
    let sequence = |rng: &mut Rng, set: &OwnSet| set.first + rng.below(set.moves);
    let from = own.last_set(rng, plan, 1, |leading| leading > 0)?;
    let to = own.last_set(rng, plan, 1, |_| true)?;
    let (taken, given) = (sequence(rng, from), sequence(rng, to));
    if from.first == to.first || weights[taken] == 0 || weights[given] == LARGEST {
        return None;
    }
    weights[taken] -= 1;
    weights[given] += 1;
    Some(changed)
}
