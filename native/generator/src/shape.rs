//! What random games are to look like.

use crate::rng::Rng;
use reference::limits::{MOST_ENTRIES, MOST_MOVES};

/// Which leaf is turned into an inner node next.
#[derive(Clone, Copy, Debug, PartialEq, Eq)]
pub enum Growth {
    Scattered,
    /// The newest one, so that paths get long.
    Deep,
    /// The oldest one, so that paths stay short.
    Level,
}

#[derive(Clone, Copy, Debug, PartialEq, Eq)]
pub enum Payoffs {
    /// -3 to 3, with many ties.
    Small,
    /// Any 16-bit number.
    Full,
    /// The largest, the smallest and those around zero.
    Extreme,
    ZeroSum,
    /// The same number at every leaf.
    Constant(i64),
}

/// What a random game is to look like.
#[derive(Clone, Copy, Debug, PartialEq, Eq)]
pub struct Shape {
    /// 1 to 4,095; met exactly unless every path is at its longest before.
    pub nodes: usize,
    /// The move counts at inner nodes, 1 to 64.
    pub least_moves: usize,
    pub most_moves: usize,
    /// How often an inner node is a chance node.
    pub chance_percent: usize,
    /// How often a decision joins a set that it may join.
    pub merge_percent: usize,
    /// Whether the players take turns by depth, which makes more sets of
    /// several nodes, or each decision's owner is drawn.
    pub in_turns: bool,
    pub growth: Growth,
    pub payoffs: Payoffs,
    /// D0, 1 to 4,095.
    pub root_weight: u64,
}

impl Shape {
    /// A shape of at most `most_nodes` nodes and `most_moves` moves.
    pub fn random(rng: &mut Rng, most_nodes: usize, most_moves: usize) -> Shape {
        let most_moves = rng.between(1, most_moves.clamp(1, MOST_MOVES) as u64);
        let least_moves = if rng.percent(50) {
            most_moves
        } else {
            rng.between(1, most_moves)
        };
        let growths = [Growth::Scattered, Growth::Deep, Growth::Level];
        Shape {
            nodes: rng.between(1, most_nodes.clamp(1, MOST_ENTRIES) as u64) as usize,
            least_moves: least_moves as usize,
            most_moves: most_moves as usize,
            chance_percent: rng.below(5) * 15,
            merge_percent: rng.below(5) * 25,
            in_turns: rng.percent(50),
            growth: growths[rng.below(growths.len())],
            payoffs: Payoffs::random(rng),
            root_weight: random_count(rng),
        }
    }

    /// A shape of at most `most_nodes` nodes with many sets of several nodes.
    pub fn crowded(rng: &mut Rng, most_nodes: usize) -> Shape {
        let moves = rng.between(2, 3) as usize;
        Shape {
            least_moves: moves,
            most_moves: moves,
            merge_percent: rng.between(60, 100) as usize,
            in_turns: rng.percent(75),
            growth: Growth::Level,
            ..Shape::random(rng, most_nodes, moves)
        }
    }

    /// A shape with many paths of 255 moves.
    pub fn deep(rng: &mut Rng) -> Shape {
        Shape {
            nodes: rng.between(600, MOST_ENTRIES as u64) as usize,
            least_moves: 1,
            most_moves: 3,
            growth: Growth::Deep,
            chance_percent: rng.below(2) * 5,
            ..Shape::random(rng, 1, 1)
        }
    }

    /// A shape of 4,095 nodes.
    pub fn full(rng: &mut Rng) -> Shape {
        let most_moves = rng.between(2, MOST_MOVES as u64);
        Shape {
            nodes: MOST_ENTRIES,
            least_moves: rng.between(1, most_moves) as usize,
            most_moves: most_moves as usize,
            growth: Growth::Scattered,
            ..Shape::random(rng, 1, 1)
        }
    }
}

impl Payoffs {
    pub fn random(rng: &mut Rng) -> Payoffs {
        match rng.below(9) {
            0..=2 => Payoffs::Small,
            3 | 4 => Payoffs::Full,
            5 => Payoffs::Extreme,
            6 | 7 => Payoffs::ZeroSum,
            _ => Payoffs::Constant(extreme_payoff(rng)),
        }
    }

    /// Both payoffs of a leaf.
    pub fn draw(self, rng: &mut Rng) -> [i64; 2] {
        match self {
            Payoffs::Small => [rng.signed(-3, 3), rng.signed(-3, 3)],
            Payoffs::Full => [rng.signed(-32_768, 32_767), rng.signed(-32_768, 32_767)],
            Payoffs::Extreme => [extreme_payoff(rng), extreme_payoff(rng)],
            Payoffs::ZeroSum => {
                let payoff = rng.signed(-9, 9);
                [payoff, -payoff]
            }
            Payoffs::Constant(payoff) => [payoff, payoff],
        }
    }
}

fn extreme_payoff(rng: &mut Rng) -> i64 {
    let choices = [-32_768, -32_767, -1, 0, 1, 32_767];
    choices[rng.below(choices.len())]
}

/// A number from 1 to 4,095, often a small one or the largest.
pub fn random_count(rng: &mut Rng) -> u64 {
    match rng.below(4) {
        0 => rng.between(1, 12),
        1 => 4_095,
        _ => rng.between(1, 4_095),
    }
}
