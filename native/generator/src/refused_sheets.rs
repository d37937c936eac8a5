//! Play sheets each made for one of refusals 19 to 21 out of one that is taken.

use crate::rng::Rng;
use crate::tables::SheetOdds;
use reference::game::{Game, Player};
use reference::limits::LARGEST;
use reference::sheet::WIDTH;

/// Prime numbers above 4,095 that two odds add up to.
const LARGE_PRIMES: [u64; 6] = [4_099, 4_111, 5_003, 6_151, 8_179, 8_171];

/// 19: no byte, a byte more or less, lengths by another filling, with a plan's header, and the
/// odds in two bytes each.
pub fn wrong_lengths(game: &Game, sheet: &[u8]) -> Vec<Vec<u8>> {
    let right = sheet.len();
    let moves: usize = game.sets().iter().map(|set| set.moves).sum();
    let mut lengths = vec![0, WIDTH * moves / 8, right + 1, right + 2, right + 4];
    lengths.extend([2 * moves, WIDTH * moves, WIDTH * moves / 8 + 1]);
    lengths.extend(right.checked_sub(1));
    lengths.retain(|&length| length != right);
    lengths.sort();
    lengths.dedup();
    let resized = |length| {
        let mut damaged = sheet.to_vec();
        damaged.resize(length, 0);
        damaged
    };
    lengths.into_iter().map(resized).collect()
}

/// 19: each filling bit by itself.
pub fn wrong_fillings(game: &Game, sheet: &[u8]) -> Vec<Vec<u8>> {
    let moves: usize = game.sets().iter().map(|set| set.moves).sum();
    let bits = 8 * sheet.len() - WIDTH * moves;
    let with_bit = |bit: usize| {
        let mut damaged = sheet.to_vec();
        if let Some(last) = damaged.last_mut() {
            *last |= 1 << bit;
        }
        damaged
    };
    (0..bits).map(with_bit).collect()
}

/// 20: a set whose own sequence has no zero odds has none.
pub fn without_odds(
    rng: &mut Rng,
    game: &Game,
    sheet: &SheetOdds,
    player: Player,
) -> Option<SheetOdds> {
    let &set = rng.pick(&sheet.arrived_at(game, player))?;
    let mut changed = sheet.clone();
    changed.by_set[set].fill(0);
    Some(changed)
}

/// 21: two odds of a set that the player arrives at add up to a large prime number, and every
/// other set has odds.
pub fn beyond_the_limit(
    rng: &mut Rng,
    game: &Game,
    sheet: &SheetOdds,
    player: Player,
) -> Option<SheetOdds> {
    let mut sets = sheet.arrived_at(game, player);
    sets.retain(|&set| game.sets()[set].moves > 1);
    let &set = rng.pick(&sets)?;
    let mut changed = sheet.clone();
    for odds in &mut changed.by_set {
        if odds.iter().all(|&odds| odds == 0) {
            let number = rng.below(odds.len());
            odds[number] = 1;
        }
    }
    let odds = &mut changed.by_set[set];
    let mut moves: Vec<usize> = (0..odds.len()).collect();
    rng.shuffle(&mut moves);
    let &prime = rng.pick(&LARGE_PRIMES)?;
    let part = rng.between(prime - LARGEST, LARGEST);
    odds.fill(0);
    odds[moves[0]] = part;
    odds[moves[1]] = prime - part;
    Some(changed)
}
