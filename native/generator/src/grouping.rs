//! Information sets for a tree. Perfect recall comes by construction: only
//! decisions of one player with the same own sequence and the same move count
//! share a set.

use crate::rng::Rng;
use crate::tree::{DraftKind, Tree};
use reference::game::{Move, Player};
use std::collections::BTreeMap;

/// The sets of a tree, with their numbers mixed.
pub(crate) struct Grouping {
    /// Owner and move count of each set.
    pub sets: Vec<(Player, usize)>,
    /// The set of each decision; 0 elsewhere.
    pub of_node: Vec<usize>,
}

impl Grouping {
    pub fn of(rng: &mut Rng, tree: &Tree, merge_percent: usize) -> Grouping {
        let mut work = Work::default();
        for node in 0..tree.nodes.len() {
            let last_moves = work.last_moves_at(tree, node);
            work.last_moves.push(last_moves);
            let set = match tree.nodes[node].kind {
                DraftKind::Decision { player, moves } => {
                    let key = (player, moves, last_moves[player.index()]);
                    work.choose_set(rng, key, merge_percent)
                }
                _ => 0,
            };
            work.of_node.push(set);
        }
        work.with_mixed_numbers(rng)
    }
}

/// Owner, move count and last own move: decisions alike in these may share a
/// set. The last own move stands for the whole own sequence.
type Key = (Player, usize, Option<Move>);

/// The sets made so far, parents before their children.
#[derive(Default)]
struct Work {
    sets: Vec<(Player, usize)>,
    of_node: Vec<usize>,
    /// Each player's last own move on the way to each node.
    last_moves: Vec<[Option<Move>; 2]>,
    alike: BTreeMap<Key, Vec<usize>>,
}

impl Work {
    fn last_moves_at(&self, tree: &Tree, node: usize) -> [Option<Move>; 2] {
        if node == 0 {
            return [None, None];
        }
        let parent = tree.nodes[node].parent;
        let mut last_moves = self.last_moves[parent];
        if let DraftKind::Decision { player, .. } = tree.nodes[parent].kind {
            last_moves[player.index()] = Some(Move {
                set: self.of_node[parent],
                number: tree.nodes[node].move_number,
            });
        }
        last_moves
    }

    fn choose_set(&mut self, rng: &mut Rng, key: Key, merge_percent: usize) -> usize {
        let alike = self.alike.entry(key).or_default();
        match rng.pick(alike) {
            Some(&set) if rng.percent(merge_percent) => set,
            _ => {
                let set = self.sets.len();
                alike.push(set);
                self.sets.push((key.0, key.1));
                set
            }
        }
    }

    fn with_mixed_numbers(self, rng: &mut Rng) -> Grouping {
        let mut numbers: Vec<usize> = (0..self.sets.len()).collect();
        rng.shuffle(&mut numbers);
        let mut sets = self.sets.clone();
        for (old, &new) in numbers.iter().enumerate() {
            sets[new] = self.sets[old];
        }
        let renumber = |old: &usize| numbers.get(*old).copied().unwrap_or(0);
        let of_node = self.of_node.iter().map(renumber).collect();
        Grouping { sets, of_node }
    }
}
