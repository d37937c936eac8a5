//! Best responses over a loaded game: worths of sequences and of sets by recursion, and best
//! moves by the stored worths.

use super::load::{Column, Loaded, ROOM};
use super::plan::Pair;
use super::Reader;
use crate::Refusal;

/// What a best response fills, each time anew.
pub(super) struct Scratch {
    sums: [i64; ROOM],
    worths: [i64; ROOM],
}

impl Scratch {
    pub fn new() -> Scratch {
        Scratch {
            sums: [0; ROOM],
            worths: [0; ROOM],
        }
    }
}

impl Loaded {
    /// The player's best value against the other's weights, and by set his best moves.
    pub(super) fn best_response(
        &self,
        player: usize,
        pair: &Pair,
        scratch: &mut Scratch,
        moves: &mut [u16],
    ) -> i64 {
        self.sums(player, pair, &mut scratch.sums);
        let tables = Tables {
            game: self,
            heads: &self.heads[player],
            sums: &scratch.sums,
        };
        let best = tables.sequence_worth(&mut scratch.worths, 0);
        for (h, number) in moves[..self.sets].iter_mut().enumerate() {
            *number = match self.player(h) == player {
                true => self.best_move(&scratch.worths, h),
                false => 0,
            };
        }
        best
    }

    /// The lowest-numbered worthiest move of a set.
    fn best_move(&self, worths: &[i64], h: usize) -> u16 {
        let worths = &worths[self.sequences_of(h)];
        let mut best = 0;
        for m in 1..worths.len() {
            if worths[best] < worths[m] {
                best = m;
            }
        }
        best as u16
    }
}

/// One player's tables.
struct Tables<'a> {
    game: &'a Loaded,
    heads: &'a [u16],
    sums: &'a [i64],
}

impl Tables<'_> {
    fn sequence_worth(&self, worths: &mut [i64], s: usize) -> i64 {
        let mut sum = self.sums[s];
        let mut at = usize::from(self.heads[s]);
        while at < self.game.sets {
            sum += self.set_worth(worths, at);
            at = usize::from(self.game.next[at]);
        }
        worths[s] = sum;
        sum
    }

    fn set_worth(&self, worths: &mut [i64], h: usize) -> i64 {
        let mut moves = self.game.sequences_of(h);
        let first = moves.next().expect("a set has a move");
        let mut top = self.move_worth(worths, first);
        for s in moves {
            top = top.max(self.move_worth(worths, s));
        }
        top
    }

    /// A sequence that leads to no set is worth its leaves, without a call.
    fn move_worth(&self, worths: &mut [i64], s: usize) -> i64 {
        if usize::from(self.heads[s]) < self.game.sets {
            return self.sequence_worth(worths, s);
        }
        worths[s] = self.sums[s];
        worths[s]
    }
}

/// A game and a pair of plans, ready for best responses of one player.
pub struct Prepared {
    player: usize,
    game: Loaded,
    pair: Pair,
    scratch: Scratch,
    moves: Column,
}

impl Prepared {
    pub fn of<R: Reader>(
        game: &[u8],
        plan: &[u8],
        player: usize,
    ) -> Result<Box<Prepared>, Refusal> {
        let mut prepared = Box::new(Prepared {
            player,
            game: Loaded::new(),
            pair: Pair::new(),
            scratch: Scratch::new(),
            moves: [0; ROOM],
        });
        prepared.game.load::<R>(game)?;
        prepared.pair.read::<R>(&prepared.game, plan)?;
        Ok(prepared)
    }

    /// The player's best value; the best moves of his sets are stored by set.
    pub fn respond(&mut self) -> i64 {
        let Prepared {
            player,
            game,
            pair,
            scratch,
            moves,
        } = self;
        game.best_response(*player, pair, scratch, moves)
    }
}
