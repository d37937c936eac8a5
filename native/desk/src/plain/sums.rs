//! What is summed over the leaves of a loaded game.

use super::load::Loaded;
use super::plan::Pair;

impl Loaded {
    /// Chance weight × the other's weight × payoff, added up by the player's own sequence.
    pub fn sums(&self, player: usize, pair: &Pair, out: &mut [i64]) {
        let other = 1 - player;
        let weights = &pair.weights[other];
        out[..self.sequences[player]].fill(0);
        for k in 0..self.leaves {
            let against = weights[usize::from(self.at_leaf[other][k])];
            let weight = u64::from(self.chance[k]) * u64::from(against);
            let own = usize::from(self.at_leaf[player][k]);
            out[own] += weight as i64 * i64::from(self.payoffs[player][k]);
        }
    }

    /// A player's value, over D0 × D1 × D2.
    pub fn value(&self, player: usize, pair: &Pair) -> i64 {
        let mut sum = 0;
        for k in 0..self.leaves {
            let weight_of = |of: usize| pair.weights[of][usize::from(self.at_leaf[of][k])];
            let both = u64::from(weight_of(0)) * u64::from(weight_of(1));
            let weight = u64::from(self.chance[k]) * both;
            sum += weight as i64 * i64::from(self.payoffs[player][k]);
        }
        sum
    }
}
