//! An accepted game: its sets, its tree and the own sequences in it.

mod check;
mod decode;

pub use check::check_game;

use crate::Refusal;

#[derive(Clone, Copy, Debug, PartialEq, Eq, PartialOrd, Ord)]
pub enum Player {
    One,
    Two,
}

impl Player {
    pub const BOTH: [Player; 2] = [Player::One, Player::Two];

    /// 0 for player 1 and 1 for player 2, as in a set entry.
    pub fn index(self) -> usize {
        match self {
            Player::One => 0,
            Player::Two => 1,
        }
    }

    pub fn other(self) -> Player {
        match self {
            Player::One => Player::Two,
            Player::Two => Player::One,
        }
    }
}

/// An information set: who moves there, and how many moves there are.
#[derive(Clone, Copy, Debug, PartialEq, Eq)]
pub struct InfoSet {
    pub player: Player,
    pub moves: usize,
}

#[derive(Clone, Copy, Debug, PartialEq, Eq)]
pub enum Kind {
    Leaf { payoffs: [i64; 2] },
    Decision { set: usize },
    Chance { moves: usize },
}

#[derive(Clone, Copy, Debug, PartialEq, Eq)]
pub struct Node {
    pub parent: usize,
    /// The move at the parent that leads here.
    pub move_number: usize,
    pub weight: u64,
    pub kind: Kind,
}

/// A player's move: a set number with a move number.
#[derive(Clone, Copy, Debug, PartialEq, Eq, PartialOrd, Ord)]
pub struct Move {
    pub set: usize,
    pub number: usize,
}

/// A leaf with the number of each player's own sequence to it.
#[derive(Clone, Copy, Debug, PartialEq, Eq)]
pub struct Leaf {
    pub node: usize,
    pub weight: u64,
    pub payoffs: [i64; 2],
    pub sequences: [usize; 2],
}

#[derive(Clone, Debug, PartialEq, Eq)]
pub struct Game {
    root_weight: u64,
    sets: Vec<InfoSet>,
    nodes: Vec<Node>,
    /// The sequence number of each set's move 0.
    first_sequences: Vec<usize>,
    /// Each set's first node, if it has one.
    first_nodes: Vec<Option<usize>>,
    /// Empty until every check holds: only then do the walks end.
    leaves: Vec<Leaf>,
}

impl Game {
    pub(crate) fn new(root_weight: u64, sets: Vec<InfoSet>, nodes: Vec<Node>) -> Self {
        Game {
            root_weight,
            first_sequences: number_sequences(&sets),
            first_nodes: find_first_nodes(sets.len(), &nodes),
            sets,
            nodes,
            leaves: Vec::new(),
        }
    }

    /// The game with its leaves stored, once every check holds.
    pub(crate) fn with_leaves(self) -> Self {
        let nodes = 0..self.nodes.len();
        let leaves = nodes.filter_map(|node| self.leaf(node)).collect();
        Game { leaves, ..self }
    }

    /// The root chance weight D0.
    pub fn root_weight(&self) -> u64 {
        self.root_weight
    }

    pub fn sets(&self) -> &[InfoSet] {
        &self.sets
    }

    pub fn nodes(&self) -> &[Node] {
        &self.nodes
    }

    /// The numbers of a player's sets, rising.
    pub fn sets_of(&self, player: Player) -> Vec<usize> {
        (0..self.sets.len())
            .filter(|&set| self.sets[set].player == player)
            .collect()
    }

    /// The player's moves on the way from the root to a node, root first; 17
    /// where the game has no such node.
    pub fn own_sequence(&self, player: Player, node: usize) -> Result<Vec<Move>, Refusal> {
        if node < self.nodes.len() {
            Ok(self.walk(player, node))
        } else {
            Err(17)
        }
    }

    /// The own sequence that leads to a set; 17 where there is no such set.
    pub fn leading_sequence(&self, set: usize) -> Result<Vec<Move>, Refusal> {
        let owner = self.sets.get(set).ok_or(17)?.player;
        let member = self.first_nodes[set].ok_or(17)?;
        self.own_sequence(owner, member)
    }

    /// The number of a player's sequences, the empty one among them.
    pub fn sequence_count(&self, player: Player) -> usize {
        let own = self.sets.iter().filter(|set| set.player == player);
        1 + own.map(|set| set.moves).sum::<usize>()
    }

    /// The number of the sequence that ends in a move; 17 where the game has no
    /// such move.
    pub fn move_sequence(&self, last: Move) -> Result<usize, Refusal> {
        match self.sets.get(last.set) {
            Some(set) if last.number < set.moves => {
                Ok(self.first_sequences[last.set] + last.number)
            }
            _ => Err(17),
        }
    }

    /// The number of the player's own sequence to a node, or 17.
    pub fn node_sequence_number(&self, player: Player, node: usize) -> Result<usize, Refusal> {
        self.sequence_number(&self.own_sequence(player, node)?)
    }

    /// The number of the own sequence that leads to a set, or 17.
    pub fn leading_sequence_number(&self, set: usize) -> Result<usize, Refusal> {
        self.sequence_number(&self.leading_sequence(set)?)
    }

    /// The player's sets that each of his sequences leads to, by its number.
    pub fn followers(&self, player: Player) -> Vec<Vec<usize>> {
        let mut followers = vec![Vec::new(); self.sequence_count(player)];
        for set in self.sets_of(player) {
            if let Ok(leading) = self.leading_sequence_number(set) {
                followers[leading].push(set);
            }
        }
        followers
    }

    /// The leaves in node order.
    pub fn leaves(&self) -> &[Leaf] {
        &self.leaves
    }

    fn leaf(&self, node: usize) -> Option<Leaf> {
        let record = self.nodes.get(node)?;
        let Kind::Leaf { payoffs } = record.kind else {
            return None;
        };
        let one = self.node_sequence_number(Player::One, node).ok()?;
        let two = self.node_sequence_number(Player::Two, node).ok()?;
        Some(Leaf {
            node,
            weight: record.weight,
            payoffs,
            sequences: [one, two],
        })
    }

    /// The number of the sequence that ends in a set's move 0.
    pub(crate) fn first_sequence(&self, set: usize) -> usize {
        self.first_sequences[set]
    }

    fn sequence_number(&self, sequence: &[Move]) -> Result<usize, Refusal> {
        match sequence.last() {
            Some(&last) => self.move_sequence(last),
            None => Ok(0),
        }
    }

    /// Collects the player's moves from a node up to the root and turns the
    /// list round. Parents must be smaller than their children.
    fn walk(&self, player: Player, node: usize) -> Vec<Move> {
        let mut moves = Vec::new();
        let mut here = node;
        while here != 0 {
            let Node {
                parent,
                move_number,
                ..
            } = self.nodes[here];
            moves.extend(self.own_move(player, parent, move_number));
            here = parent;
        }
        moves.reverse();
        moves
    }

    /// The move at a node, if the node is a decision of the player.
    fn own_move(&self, player: Player, node: usize, number: usize) -> Option<Move> {
        match self.nodes[node].kind {
            Kind::Decision { set } if self.sets[set].player == player => Some(Move { set, number }),
            _ => None,
        }
    }

    /// The number of moves at a node, 0 at a leaf.
    pub fn move_count(&self, node: usize) -> usize {
        match self.nodes[node].kind {
            Kind::Leaf { .. } => 0,
            Kind::Decision { set } => self.sets[set].moves,
            Kind::Chance { moves } => moves,
        }
    }
}

/// For each set the number of the sequence that ends in its move 0: from 1 on,
/// player by player, sets rising and moves rising.
fn number_sequences(sets: &[InfoSet]) -> Vec<usize> {
    let mut next = [1, 1];
    let mut first = Vec::with_capacity(sets.len());
    for set in sets {
        let counter = &mut next[set.player.index()];
        first.push(*counter);
        *counter += set.moves;
    }
    first
}

/// For each set the first of its nodes, if it has one.
fn find_first_nodes(sets: usize, nodes: &[Node]) -> Vec<Option<usize>> {
    let mut first = vec![None; sets];
    for (number, node) in nodes.iter().enumerate() {
        match node.kind {
            Kind::Decision { set } if set < sets => {
                first[set].get_or_insert(number);
            }
            _ => {}
        }
    }
    first
}
