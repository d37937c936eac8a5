//! Values, and worths from the last sets to the first.

use super::tree::{Leaf, Tree};
use super::weights::Weights;
use super::ROOM;
use crate::plain::require;
use crate::Refusal;

pub struct Worths {
    /// Of each player by sequence: what its leaves earn, and then what it is worth.
    by_number: [[i64; ROOM]; 2],
    /// Of each player, over D0 × D1 × D2.
    pub values: [i64; 2],
    /// By set: its lowest-numbered worthiest move.
    best_moves: [u8; ROOM],
}

impl Worths {
    pub fn new() -> Worths {
        Worths {
            by_number: [[0; ROOM]; 2],
            values: [0; 2],
            best_moves: [0; ROOM],
        }
    }

    pub fn clear(&mut self, sequences: [usize; 2]) {
        for (worths, count) in self.by_number.iter_mut().zip(sequences) {
            worths[..count].fill(0);
        }
    }

    /// Adds what a leaf earns each player against the other's plan.
    #[inline(always)]
    pub fn earn(&mut self, weights: &Weights, leaf: &Leaf) {
        let [one, two] = leaf.earnings();
        let [first, second] = [0, 1].map(|player| leaf.sequence(player));
        self.by_number[0][first] += one * i64::from(weights.by_number[1][second]);
        self.by_number[1][second] += two * i64::from(weights.by_number[0][first]);
    }

    /// Check 16, with values, worths and best moves. A set comes after those whose moves lead
    /// to it.
    pub fn find(&mut self, tree: &Tree, weights: &Weights) -> Option<()> {
        for player in 0..2 {
            self.values[player] = self.value(player, weights, tree.sequences[player]);
        }
        for &number in tree.order[..tree.met].iter().rev() {
            let number = usize::from(number);
            let set = &tree.sets[number];
            if !weights.fit(set) {
                return None;
            }
            let worths = &mut self.by_number[usize::from(set.player)];
            let (best, top) = worthiest(&worths[set.sequences()]);
            self.best_moves[number] = best;
            worths[usize::from(set.lead) % ROOM] += top;
        }
        Some(())
    }

    fn value(&self, player: usize, weights: &Weights, count: usize) -> i64 {
        let earned = &self.by_number[player][..count];
        let weights = &weights.by_number[player][..count];
        let terms = earned.iter().zip(weights);
        terms.map(|(sum, &weight)| sum * i64::from(weight)).sum()
    }

    /// Of each player, over D0 × the other's D.
    pub fn bests(&self) -> [i64; 2] {
        [0, 1].map(|player: usize| self.by_number[player][0])
    }

    /// Of each player, over D0 × D1 × D2.
    pub fn gains(&self, denominators: [u64; 2]) -> [i64; 2] {
        let bests = self.bests();
        [0, 1].map(|player| bests[player] * denominators[player] as i64 - self.values[player])
    }

    /// The best moves of a player's sets into the buffer, and how many there are, or 18.
    pub fn show(&self, tree: &Tree, player: usize, moves: &mut [u64]) -> Result<u64, Refusal> {
        let sets = tree.sets[..tree.met].iter().zip(&self.best_moves);
        let own = sets.filter(|(set, _)| usize::from(set.player) == player);
        let count = own.clone().count();
        require(moves.len() >= count, 18)?;
        for (shown, (_, &best)) in moves.iter_mut().zip(own) {
            *shown = best.into();
        }
        Ok(count as u64)
    }
}

/// The first of the largest numbers, with its place.
fn worthiest(worths: &[i64]) -> (u8, i64) {
    let mut best = (0, i64::MIN);
    for (place, &worth) in worths.iter().enumerate() {
        if worth > best.1 {
            best = (place as u8, worth);
        }
    }
    best
}
