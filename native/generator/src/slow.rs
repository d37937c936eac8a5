//! Games with a long path from the root, their trunk, with leaves beside it and a fan of leaves
//! at its end: slow for a method that walks from each node to the root.

use crate::games::game_of;
use crate::large::{comb, most_sets_of_one};
use crate::rng::Rng;
use crate::shape::Payoffs;
use crate::tables::GameTables;
use crate::tree::Tree;
use reference::game::Player;
use reference::limits::{LARGEST, LONGEST_PATH, MOST_ENTRIES, MOST_MOVES};

/// Who moves along a trunk or in a fan.
#[derive(Clone, Copy, Debug, PartialEq, Eq)]
pub enum Movers {
    Chance,
    Always(Player),
    InTurns,
    /// Chance or either player, drawn at each node.
    Drawn,
}

impl Movers {
    fn random(rng: &mut Rng) -> Movers {
        let choices = [
            Movers::Chance,
            Movers::Always(Player::One),
            Movers::Always(Player::Two),
            Movers::InTurns,
            Movers::Drawn,
        ];
        choices[rng.below(choices.len())]
    }

    /// The player who moves at this depth, or none where it is chance.
    fn at(self, rng: &mut Rng, depth: usize) -> Option<Player> {
        match self {
            Movers::Chance => None,
            Movers::Always(player) => Some(player),
            Movers::InTurns => Some(Player::BOTH[depth % 2]),
            Movers::Drawn => Player::BOTH.get(rng.below(3)).copied(),
        }
    }
}

/// What stands at the end of a trunk: a node with branches, each with as many leaves.
#[derive(Clone, Copy, Debug, PartialEq, Eq)]
pub struct Fan {
    pub movers: Movers,
    pub branches: usize,
    pub leaves: usize,
}

impl Fan {
    /// Two moves lead from the end of a trunk to a leaf.
    const DEPTH: usize = 2;

    /// A fan of at most so many nodes, which must be three.
    fn random(rng: &mut Rng, most_nodes: usize) -> Fan {
        let most = |count: usize| count.min(MOST_MOVES) as u64;
        let leaves = rng.between(1, most(most_nodes - 2)) as usize;
        let most_branches = most((most_nodes - 1) / (leaves + 1));
        let least_branches = if rng.percent(50) { most_branches } else { 1 };
        Fan {
            movers: Movers::random(rng),
            branches: rng.between(least_branches, most_branches) as usize,
            leaves,
        }
    }

    fn grow(&self, rng: &mut Rng, tree: &mut Tree, end: usize) {
        let first = tree.nodes.len();
        self.branch(rng, tree, end, self.branches, self.leaves as u64);
        for branch in first..first + self.branches {
            self.branch(rng, tree, branch, self.leaves, 1);
        }
    }

    /// Makes an inner node of a leaf; chance gives each move this weight or more.
    fn branch(&self, rng: &mut Rng, tree: &mut Tree, leaf: usize, moves: usize, least: u64) {
        let (depth, weight) = (tree.nodes[leaf].depth, tree.nodes[leaf].weight);
        match self.movers.at(rng, depth) {
            Some(player) => tree.make_decision(leaf, player, moves),
            None => tree.make_chance(leaf, rng.shares(weight, moves, least)),
        }
    }
}

/// What a slow game is to look like.
#[derive(Clone, Copy, Debug, PartialEq, Eq)]
pub struct Slow {
    /// How many nodes the trunk has.
    pub length: usize,
    pub movers: Movers,
    /// As many leaves stand beside the trunk at each of its nodes.
    pub teeth: usize,
    /// Without one the trunk ends in a leaf.
    pub fan: Option<Fan>,
    /// How often a decision joins a set that it may join.
    pub merge_percent: usize,
    pub payoffs: Payoffs,
    /// D0, no less than there are leaves.
    pub root_weight: u64,
}

impl Slow {
    /// A trunk of any kind with a fan behind it where there is room for one.
    pub fn random(rng: &mut Rng, most_nodes: usize) -> Slow {
        let most_nodes = most_nodes.clamp(1, MOST_ENTRIES);
        let teeth = [0, 0, 1, rng.below(16)][rng.below(4)];
        let left = [0, Fan::DEPTH][rng.below(2)];
        let longest = (LONGEST_PATH - left).min((most_nodes - 1) / (teeth + 1)) as u64;
        let shortest = if rng.percent(30) {
            longest
        } else {
            longest / 2
        };
        let length = rng.between(shortest, longest) as usize;
        let rest = most_nodes - length * (teeth + 1);
        let has_room = rest > Fan::DEPTH && length + Fan::DEPTH <= LONGEST_PATH;
        let fan = has_room.then(|| Fan::random(rng, rest));
        Slow {
            length,
            movers: Movers::random(rng),
            teeth,
            fan,
            merge_percent: rng.below(5) * 25,
            payoffs: Payoffs::random(rng),
            root_weight: rng.between(most_nodes as u64, LARGEST),
        }
    }

    /// One of full size, its trunk as long as a path may be.
    fn full(movers: Movers, teeth: usize, fan: Option<Fan>) -> Slow {
        let depth = if fan.is_some() { Fan::DEPTH } else { 0 };
        let ends = fan.map_or(1, |fan| 1 + fan.branches * (fan.leaves + 1));
        let longest = (MOST_ENTRIES - ends) / (teeth + 1);
        Slow {
            length: longest.min(LONGEST_PATH - depth),
            movers,
            teeth,
            fan,
            merge_percent: 100,
            payoffs: Payoffs::Full,
            root_weight: LARGEST,
        }
    }

    /// Makes one more node of the trunk of the leaf at its end, and gives its new end.
    fn lengthen(&self, rng: &mut Rng, tree: &mut Tree, end: usize) -> usize {
        let (depth, weight) = (tree.nodes[end].depth, tree.nodes[end].weight);
        let moves = self.teeth + 1;
        let onward = rng.below(moves);
        let next = tree.nodes.len() + onward;
        match self.movers.at(rng, depth) {
            Some(player) => tree.make_decision(end, player, moves),
            None => {
                let mut weights = vec![1; moves];
                weights[onward] = weight - self.teeth as u64;
                tree.make_chance(end, weights);
            }
        }
        next
    }
}

/// A game of that kind.
pub fn slow_game(rng: &mut Rng, slow: &Slow) -> GameTables {
    let mut tree = Tree::new(slow.root_weight);
    let mut end = 0;
    for _ in 0..slow.length {
        end = slow.lengthen(rng, &mut tree, end);
    }
    if let Some(fan) = slow.fan {
        fan.grow(rng, &mut tree, end);
    }
    game_of(rng, &tree, slow.merge_percent, slow.payoffs)
}

/// A name, and a game.
pub type Named = (&'static str, GameTables);

/// Slow games of full size. The first has no set: each of 4,094 nodes is 253 moves of chance or
/// more from the last own move of either player, of which there is none.
pub fn slow_games_of_full_size() -> Vec<Named> {
    let mut rng = Rng::new(253);
    let of = |movers, branches, leaves| {
        Some(Fan {
            movers,
            branches,
            leaves,
        })
    };
    let (one, two) = (Movers::Always(Player::One), Movers::Always(Player::Two));
    let drawn = [
        (
            "chance before a fan of chance",
            Slow::full(Movers::Chance, 0, of(Movers::Chance, 60, 63)),
        ),
        (
            "player 1 before a fan of his own",
            Slow::full(one, 0, of(one, 60, 63)),
        ),
        (
            "player 2 before a fan in turns",
            Slow::full(two, 0, of(Movers::InTurns, 60, 63)),
        ),
        ("a comb of chance", Slow::full(Movers::Chance, 15, None)),
        (
            "a comb of all kinds before a fan",
            Slow::full(Movers::Drawn, 15, of(Movers::Drawn, 32, 63)),
        ),
    ];
    let mut games: Vec<Named> = drawn
        .into_iter()
        .map(|(name, slow)| (name, slow_game(&mut rng, &slow)))
        .collect();
    games.push(("a comb of player 1", comb(|_| Player::One, 15)));
    games.push(("most sets of player 1", most_sets_of_one()));
    games
}
