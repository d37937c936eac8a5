//! Kuhn poker and Leduc poker, both zero-sum.

use crate::tables::{GameTables, Place, PlanWeights};
use reference::game::Player;
use std::collections::BTreeMap;

const RANKS: usize = 3;

/// Kuhn poker: three cards, ante 1, one bet of 1. Player 1's sets are 2 × card
/// at first and 2 × card + 1 after check and bet; player 2's are 6 + 2 × card
/// after a check and 7 + 2 × card after a bet. Move 1 puts a chip in.
pub fn kuhn() -> GameTables {
    let mut tables = GameTables::new(6);
    for player in Player::BOTH {
        for _ in 0..2 * RANKS {
            tables.add_set(player, 2);
        }
    }
    let root = tables.add_chance(tables.root(), 6);
    let mut deal = 0;
    for first in 0..RANKS {
        for second in (0..RANKS).filter(|&card| card != first) {
            kuhn_deal(&mut tables, Place::new(root, deal, 1), [first, second]);
            deal += 1;
        }
    }
    tables
}

fn kuhn_deal(tables: &mut GameTables, place: Place, cards: [usize; 2]) {
    let [one, two] = cards.map(|card| 2 * card as u64);
    let win = if cards[0] > cards[1] { 1 } else { -1 };
    let start = tables.add_decision(place, one);
    let checked = tables.add_decision(Place::new(start, 0, 1), 6 + two);
    let bet = tables.add_decision(Place::new(start, 1, 1), 7 + two);
    tables.add_leaf(Place::new(checked, 0, 1), [win, -win]);
    let answer = tables.add_decision(Place::new(checked, 1, 1), one + 1);
    tables.add_leaf(Place::new(answer, 0, 1), [-1, 1]);
    tables.add_leaf(Place::new(answer, 1, 1), [2 * win, -2 * win]);
    tables.add_leaf(Place::new(bet, 0, 1), [1, -1]);
    tables.add_leaf(Place::new(bet, 1, 1), [2 * win, -2 * win]);
}

/// An equilibrium of Kuhn poker, of value -1/18 for player 1: with the lowest
/// card he bets `bluffs` times of 3 × `thirds`. `thirds` is brought into 1 to
/// 1,365 and `bluffs` cut to it.
pub fn kuhn_equilibrium(thirds: u64, bluffs: u64) -> PlanWeights {
    let thirds = thirds.clamp(1, 1_365);
    let bluffs = bluffs.min(thirds);
    let whole = 3 * thirds;
    let low = [whole - bluffs, bluffs, whole - bluffs, 0];
    let middle = [whole, 0, 2 * thirds - bluffs, thirds + bluffs];
    let high = [whole - 3 * bluffs, 3 * bluffs, 0, whole - 3 * bluffs];
    let one = [&[whole][..], &low, &middle, &high].concat();
    let two = vec![3, 2, 1, 3, 0, 3, 0, 2, 1, 0, 3, 0, 3];
    PlanWeights {
        weights: [one, two],
    }
}

/// The odds of `kuhn_equilibrium(2, 1)` in plan order, each set's in lowest terms.
pub fn kuhn_odds() -> Vec<u64> {
    let one = [5, 1, 1, 0, 1, 0, 1, 1, 1, 1, 0, 1];
    let two = [2, 1, 1, 0, 1, 0, 2, 1, 0, 1, 0, 1];
    [one, two].concat()
}

/// The equilibrium without bluffs, but player 1 always bets with the highest card: his bet says
/// what he holds.
pub fn kuhn_without_bluffs() -> PlanWeights {
    let mut pair = kuhn_equilibrium(1, 0);
    pair.weights[0][9..13].copy_from_slice(&[0, 3, 0, 0]);
    pair
}

/// An equilibrium, but player 2 calls every bet.
pub fn kuhn_with_every_call() -> PlanWeights {
    let mut pair = kuhn_equilibrium(2, 1);
    for card in 0..RANKS {
        pair.weights[1][4 * card + 3..4 * card + 5].copy_from_slice(&[0, 3]);
    }
    pair
}

/// Leduc poker: two cards of each of three ranks, ante 1, bets of 2 and then 4,
/// at most one raise in each of the two rounds.
pub fn leduc() -> GameTables {
    let mut table = Leduc {
        tables: GameTables::new(120),
        sets: BTreeMap::new(),
    };
    table.deal();
    table.tables
}

/// What a player knows: his number, his card, the open card and the moves made.
type Knowledge = (usize, usize, Option<usize>, Vec<Action>);

struct Leduc {
    tables: GameTables,
    sets: BTreeMap<Knowledge, u64>,
}

#[derive(Clone, Copy, Debug, PartialEq, Eq, PartialOrd, Ord)]
enum Action {
    Check,
    Bet,
    Fold,
    Call,
    Raise,
}

#[derive(Clone)]
struct Hand {
    cards: [usize; 2],
    open_card: Option<usize>,
    stakes: [i64; 2],
    actor: usize,
    history: Vec<Action>,
}

impl Hand {
    /// The moves of the player whose turn it is.
    fn actions(&self) -> &'static [Action] {
        match self.history.last() {
            Some(Action::Bet) => &[Action::Fold, Action::Call, Action::Raise],
            Some(Action::Raise) => &[Action::Fold, Action::Call],
            _ => &[Action::Check, Action::Bet],
        }
    }

    fn after(&self, action: Action) -> Hand {
        let mut next = self.clone();
        let bet = if self.open_card.is_some() { 4 } else { 2 };
        let other_stake = self.stakes[1 - self.actor];
        match action {
            Action::Bet | Action::Raise => next.stakes[self.actor] = other_stake + bet,
            Action::Call => next.stakes[self.actor] = other_stake,
            Action::Check | Action::Fold => {}
        }
        next.history.push(action);
        next.actor = 1 - self.actor;
        next
    }

    /// Whether a call or a second check has just ended the round.
    fn round_is_over(&self) -> bool {
        match self.history.last() {
            Some(Action::Call) => true,
            Some(Action::Check) => self.actor == 0,
            _ => false,
        }
    }

    /// Payoffs after a fold: the one who folded has just moved.
    fn after_fold(&self) -> [i64; 2] {
        let folder = 1 - self.actor;
        let lost = self.stakes[folder];
        if folder == 0 {
            [-lost, lost]
        } else {
            [lost, -lost]
        }
    }

    /// Payoffs at the end: a pair with the open card wins, then the higher card.
    fn showdown(&self) -> [i64; 2] {
        let strength = self.cards.map(|card| (Some(card) == self.open_card, card));
        match strength[0].cmp(&strength[1]) {
            std::cmp::Ordering::Less => [-self.stakes[0], self.stakes[0]],
            std::cmp::Ordering::Equal => [0, 0],
            std::cmp::Ordering::Greater => [self.stakes[1], -self.stakes[1]],
        }
    }
}

impl Leduc {
    fn deal(&mut self) {
        let root = self.tables.add_chance(self.tables.root(), 9);
        for first in 0..RANKS {
            for second in 0..RANKS {
                let weight = if first == second { 8 } else { 16 };
                let number = (first * RANKS + second) as u64;
                let hand = Hand {
                    cards: [first, second],
                    open_card: None,
                    stakes: [1, 1],
                    actor: 0,
                    history: Vec::new(),
                };
                self.decide(Place::new(root, number, weight), &hand);
            }
        }
    }

    fn decide(&mut self, place: Place, hand: &Hand) {
        let set = self.set_of(hand);
        let node = self.tables.add_decision(place, set);
        for (number, &action) in hand.actions().iter().enumerate() {
            let below = Place::new(node, number as u64, place.weight);
            self.go_on(below, &hand.after(action));
        }
    }

    fn go_on(&mut self, place: Place, hand: &Hand) {
        if hand.history.last() == Some(&Action::Fold) {
            self.tables.add_leaf(place, hand.after_fold());
        } else if !hand.round_is_over() {
            self.decide(place, hand);
        } else if hand.open_card.is_some() {
            self.tables.add_leaf(place, hand.showdown());
        } else {
            self.open(place, hand);
        }
    }

    /// Turns one of the four cards left, like ranks taken together.
    fn open(&mut self, place: Place, hand: &Hand) {
        let left = |rank: usize| 2 - hand.cards.iter().filter(|&&card| card == rank).count();
        let ranks: Vec<usize> = (0..RANKS).filter(|&rank| left(rank) > 0).collect();
        let node = self.tables.add_chance(place, ranks.len() as u64);
        for (number, &rank) in ranks.iter().enumerate() {
            let weight = place.weight * left(rank) as u64 / 4;
            let next = Hand {
                open_card: Some(rank),
                actor: 0,
                ..hand.clone()
            };
            self.decide(Place::new(node, number as u64, weight), &next);
        }
    }

    fn set_of(&mut self, hand: &Hand) -> u64 {
        let card = hand.cards[hand.actor];
        let known = (hand.actor, card, hand.open_card, hand.history.clone());
        let (tables, owner) = (&mut self.tables, Player::BOTH[hand.actor]);
        let moves = hand.actions().len() as u64;
        *self
            .sets
            .entry(known)
            .or_insert_with(|| tables.add_set(owner, moves))
    }
}
