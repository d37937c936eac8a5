//! Random game trees, before their decisions are put into sets.

use crate::rng::Rng;
use crate::shape::{Growth, Shape};
use reference::game::Player;
use reference::limits::{LARGEST, LONGEST_PATH, MOST_ENTRIES, MOST_MOVES};

#[derive(Clone, Copy)]
pub(crate) enum DraftKind {
    Leaf,
    Decision { player: Player, moves: usize },
    Chance { moves: usize },
}

pub(crate) struct Draft {
    pub parent: usize,
    pub move_number: usize,
    pub weight: u64,
    pub depth: usize,
    pub kind: DraftKind,
}

/// A tree without set numbers; parents come before their children.
pub(crate) struct Tree {
    pub nodes: Vec<Draft>,
    /// Leaves that may still get children, oldest first.
    open: Vec<usize>,
}

impl Tree {
    /// A leaf alone.
    pub fn new(root_weight: u64) -> Tree {
        let mut tree = Tree {
            nodes: Vec::new(),
            open: Vec::new(),
        };
        tree.add_leaf(0, 0, root_weight.clamp(1, LARGEST), 0);
        tree
    }

    pub fn grow(rng: &mut Rng, shape: &Shape) -> Tree {
        let most_nodes = shape.nodes.clamp(1, MOST_ENTRIES);
        let mut tree = Tree::new(shape.root_weight);
        while tree.nodes.len() < most_nodes && !tree.open.is_empty() {
            let leaf = tree.take_open(rng, shape.growth);
            let room = (most_nodes - tree.nodes.len()).min(MOST_MOVES);
            let most = shape.most_moves.clamp(1, room);
            let least = shape.least_moves.clamp(1, most);
            let moves = rng.between(least as u64, most as u64) as usize;
            tree.expand(rng, shape, leaf, moves);
        }
        tree
    }

    fn take_open(&mut self, rng: &mut Rng, growth: Growth) -> usize {
        let place = match growth {
            Growth::Scattered => rng.below(self.open.len()),
            Growth::Deep => self.open.len() - 1,
            Growth::Level => 0,
        };
        self.open.remove(place)
    }

    fn add_leaf(&mut self, parent: usize, move_number: usize, weight: u64, depth: usize) {
        if depth < LONGEST_PATH {
            self.open.push(self.nodes.len());
        }
        self.nodes.push(Draft {
            parent,
            move_number,
            weight,
            depth,
            kind: DraftKind::Leaf,
        });
    }

    /// Makes an inner node of a leaf; chance needs a weight for each child.
    fn expand(&mut self, rng: &mut Rng, shape: &Shape, leaf: usize, moves: usize) {
        let Draft { weight, depth, .. } = self.nodes[leaf];
        let by_chance = rng.percent(shape.chance_percent) && weight >= moves as u64;
        if by_chance {
            let weights = rng.shares(weight, moves, 1);
            self.make_chance(leaf, weights);
        } else {
            let turn = if shape.in_turns { depth } else { rng.below(2) };
            self.make_decision(leaf, Player::BOTH[turn % 2], moves);
        }
    }

    /// Makes a chance node of a leaf, with a leaf for each weight.
    pub fn make_chance(&mut self, leaf: usize, weights: Vec<u64>) {
        let moves = weights.len();
        self.nodes[leaf].kind = DraftKind::Chance { moves };
        self.add_children(leaf, weights);
    }

    /// Makes a decision of a leaf, with a leaf for each move.
    pub fn make_decision(&mut self, leaf: usize, player: Player, moves: usize) {
        self.nodes[leaf].kind = DraftKind::Decision { player, moves };
        self.add_children(leaf, vec![self.nodes[leaf].weight; moves]);
    }

    fn add_children(&mut self, parent: usize, weights: Vec<u64>) {
        let depth = self.nodes[parent].depth + 1;
        for (move_number, weight) in weights.into_iter().enumerate() {
            self.add_leaf(parent, move_number, weight, depth);
        }
    }

    /// The nodes in an order with each parent before its children: as grown, or
    /// drawn at random.
    pub fn random_order(&self, rng: &mut Rng) -> Vec<usize> {
        if rng.percent(50) {
            return (0..self.nodes.len()).collect();
        }
        let mut children = vec![Vec::new(); self.nodes.len()];
        for (number, node) in self.nodes.iter().enumerate().skip(1) {
            children[node.parent].push(number);
        }
        let mut ready = vec![0];
        let mut order = Vec::new();
        while !ready.is_empty() {
            let node = ready.swap_remove(rng.below(ready.len()));
            ready.append(&mut children[node]);
            order.push(node);
        }
        order
    }
}
