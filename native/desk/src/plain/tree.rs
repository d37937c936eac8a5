//! Checks 7 to 11 over the columns.

use super::load::{Loaded, CHANCE, DECISION};
use super::{require, LIMIT};
use crate::Refusal;
use reference::limits::LONGEST_PATH;

impl Loaded {
    pub fn check_tree(&self) -> Result<(), Refusal> {
        require((0..self.nodes).all(|n| self.in_range(n)), 7)?;
        require((0..self.nodes).all(|n| self.attached(n)), 8)?;
        require(self.moves_lead_on(), 9)?;
        require(self.weights_right(), 10)?;
        require(self.paths_in_limit(), 11)
    }

    fn in_range(&self, n: usize) -> bool {
        match self.kinds[n] {
            DECISION => usize::from(self.payloads[n]) < self.sets,
            CHANCE => (1..=64).contains(&self.payloads[n]),
            _ => true,
        }
    }

    /// How many moves a node has; a leaf has none.
    fn move_count(&self, n: usize) -> u16 {
        match self.kinds[n] {
            DECISION => self.moves[usize::from(self.payloads[n])],
            _ => self.payloads[n],
        }
    }

    fn attached(&self, n: usize) -> bool {
        let parent = usize::from(self.parents[n]);
        if n == 0 {
            return parent == 0 && self.places[n] == 0;
        }
        parent < n && self.places[n] < self.move_count(parent)
    }

    /// A bit for each move met at each parent, none twice; then all of each node's moves.
    fn moves_lead_on(&self) -> bool {
        let mut seen = [0u64; LIMIT];
        for n in 1..self.nodes {
            let parent = usize::from(self.parents[n]);
            let place = self.places[n];
            if seen[parent] >> place & 1 == 1 {
                return false;
            }
            seen[parent] += 1 << place;
        }
        (0..self.nodes).all(|n| match self.move_count(n) {
            64 => seen[n] == u64::MAX,
            moves => seen[n] == (1 << moves) - 1,
        })
    }

    fn weights_right(&self) -> bool {
        let mut sums = [0u32; LIMIT];
        for n in 1..self.nodes {
            sums[usize::from(self.parents[n])] += u32::from(self.weights[n]);
        }
        (0..self.nodes).all(|n| self.weight_right(n, sums[n]))
    }

    /// `sum` is that of the weights of the node's children.
    fn weight_right(&self, n: usize, sum: u32) -> bool {
        let weight = self.weights[n];
        if weight == 0 || self.kinds[n] == CHANCE && sum != u32::from(weight) {
            return false;
        }
        if n == 0 {
            return u64::from(weight) == self.root_weight;
        }
        let parent = usize::from(self.parents[n]);
        self.kinds[parent] != DECISION || weight == self.weights[parent]
    }

    fn paths_in_limit(&self) -> bool {
        let mut depths = [0u8; LIMIT];
        (1..self.nodes).all(|n| {
            let depth = usize::from(depths[usize::from(self.parents[n])]) + 1;
            depths[n] = depth as u8;
            depth <= LONGEST_PATH
        })
    }
}
