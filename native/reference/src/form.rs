//! The sequence form: payoff table, values and best values, all exact.

use crate::game::{Game, Move, Player};
use crate::plan::Plan;
use std::collections::BTreeMap;

/// A pair of sequences at which some leaf stands, with both payoff sums.
#[derive(Clone, Copy, Debug, PartialEq, Eq)]
pub struct Row {
    pub sequences: [usize; 2],
    /// Per player the sum of chance weight × payoff over the pair's leaves.
    pub sums: [i128; 2],
}

/// A player's best response to the other's plan.
#[derive(Clone, Debug, PartialEq, Eq)]
pub struct BestResponse {
    /// The worth of each sequence by its number, over D0 × the other's D.
    pub worths: Vec<i128>,
    /// For each of the player's sets, rising, its lowest worthiest move.
    pub moves: Vec<Move>,
}

impl BestResponse {
    /// The best value, over D0 × the other's D.
    pub fn count(&self) -> i128 {
        self.worths.first().copied().unwrap_or(0)
    }
}

/// The payoff table, sorted by player 1's sequence, then player 2's.
pub fn payoff_table(game: &Game) -> Vec<Row> {
    let mut sums: BTreeMap<[usize; 2], [i128; 2]> = BTreeMap::new();
    for leaf in game.leaves() {
        let row = sums.entry(leaf.sequences).or_default();
        for player in [0, 1] {
            row[player] += i128::from(leaf.weight) * i128::from(leaf.payoffs[player]);
        }
    }
    let rows = sums.into_iter();
    rows.map(|(sequences, sums)| Row { sequences, sums })
        .collect()
}

/// The player's value, over D0 × D1 × D2, summed over the leaves.
pub fn value_count(plan: &Plan, player: Player) -> i128 {
    let leaves = plan.game().leaves().iter();
    leaves
        .map(|leaf| {
            i128::from(leaf.weight)
                * i128::from(plan.weights(Player::One)[leaf.sequences[0]])
                * i128::from(plan.weights(Player::Two)[leaf.sequences[1]])
                * i128::from(leaf.payoffs[player.index()])
        })
        .sum()
}

/// What a player gains by earning `best`, counted over D0 × the other's D, in the
/// place of his value, over D0 × D1 × D2.
pub fn gain_count(plan: &Plan, player: Player, best: i128) -> i128 {
    best * i128::from(plan.denominator(player)) - value_count(plan, player)
}

/// The player's value from the payoff table.
pub fn table_value_count(plan: &Plan, player: Player) -> i128 {
    let rows = payoff_table(plan.game()).into_iter();
    rows.map(|row| {
        row.sums[player.index()]
            * i128::from(plan.weights(Player::One)[row.sequences[0]])
            * i128::from(plan.weights(Player::Two)[row.sequences[1]])
    })
    .sum()
}

/// The worth of every sequence of the player, and his worthiest moves.
pub fn best_response(plan: &Plan, player: Player) -> BestResponse {
    let mut search = Search::new(plan, player);
    search.sequence_worth(0);
    search.moves.sort();
    BestResponse {
        worths: search.worths,
        moves: search.moves,
    }
}

/// What the worths are made of, and those found so far.
struct Search<'g> {
    game: &'g Game,
    /// What the leaves at each very sequence earn.
    earned: Vec<i128>,
    /// The own sets that each sequence leads to.
    followers: Vec<Vec<usize>>,
    worths: Vec<i128>,
    moves: Vec<Move>,
}

impl<'g> Search<'g> {
    fn new(plan: &Plan<'g>, player: Player) -> Self {
        let game = plan.game();
        Search {
            game,
            earned: earned_at_sequences(plan, player),
            followers: game.followers(player),
            worths: vec![0; game.sequence_count(player)],
            moves: Vec::new(),
        }
    }

    /// A sequence is worth its own leaves and the sets that it leads to.
    fn sequence_worth(&mut self, sequence: usize) -> i128 {
        let mut worth = self.earned[sequence];
        for set in self.followers[sequence].clone() {
            worth += self.set_worth(set);
        }
        self.worths[sequence] = worth;
        worth
    }

    /// A set is worth its worthiest move; the lowest-numbered one is noted.
    fn set_worth(&mut self, set: usize) -> i128 {
        let first = self.game.first_sequence(set);
        let mut best = self.sequence_worth(first);
        let mut worthiest = 0;
        for number in 1..self.game.sets()[set].moves {
            let worth = self.sequence_worth(first + number);
            if worth > best {
                best = worth;
                worthiest = number;
            }
        }
        self.moves.push(Move {
            set,
            number: worthiest,
        });
        best
    }
}

/// For each sequence of the player, chance weight × other's plan weight × payoff
/// of the leaves at that very sequence.
fn earned_at_sequences(plan: &Plan, player: Player) -> Vec<i128> {
    let mut earned = vec![0; plan.game().sequence_count(player)];
    let other = player.other();
    for leaf in plan.game().leaves() {
        let against = plan.weights(other)[leaf.sequences[other.index()]];
        earned[leaf.sequences[player.index()]] += i128::from(leaf.weight)
            * i128::from(against)
            * i128::from(leaf.payoffs[player.index()]);
    }
    earned
}
