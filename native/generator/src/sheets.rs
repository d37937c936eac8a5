//! Play sheets for a game.

use crate::rng::Rng;
use crate::tables::SheetOdds;
use reference::game::{Game, Move, Player};
use reference::limits::LARGEST;
use reference::plan::Plan;
use reference::sheet::Sheet;
use reference::Refusal;

/// How the odds at a set are drawn.
#[derive(Clone, Copy, Debug, PartialEq, Eq)]
enum Way {
    /// No move has any.
    None,
    /// One move alone has some.
    Alone,
    /// All moves have the same.
    Even,
    /// Up to this number, 0 often among them.
    UpTo(u64),
}

impl Way {
    fn draw(self, rng: &mut Rng, moves: usize) -> Vec<u64> {
        let number = rng.between(1, LARGEST);
        match self {
            Way::None => vec![0; moves],
            Way::Alone => {
                let mut odds = vec![0; moves];
                odds[rng.below(moves)] = number;
                odds
            }
            Way::Even => vec![number; moves],
            Way::UpTo(most) => (0..moves).map(|_| rng.between(0, most)).collect(),
        }
    }
}

/// A sheet of a plan's probabilities. Where the plan arrives the odds are its weights in lowest
/// terms times some number, elsewhere they are any. It is taken.
pub fn sheet_of(rng: &mut Rng, plan: &Plan) -> SheetOdds {
    let ways = [Way::None, Way::Alone, Way::UpTo(2), Way::UpTo(LARGEST)];
    let lowest = Sheet::of_plan(plan);
    let at_set = |odds: &Vec<u64>| match odds.iter().max() {
        Some(&most) if most > 0 => {
            let factor = random_factor(rng, LARGEST / most);
            odds.iter().map(|odds| odds * factor).collect()
        }
        _ => ways[rng.below(ways.len())].draw(rng, odds.len()),
    };
    SheetOdds {
        by_set: lowest.odds().iter().map(at_set).collect(),
    }
}

/// A number from 1 to `most`, often one of these two.
fn random_factor(rng: &mut Rng, most: u64) -> u64 {
    match rng.below(4) {
        0 => 1,
        1 => most,
        _ => rng.between(1, most),
    }
}

/// A random sheet, which may be taken or refused by 20 or 21.
pub fn random_sheet(rng: &mut Rng, game: &Game) -> SheetOdds {
    let ways: &[Way] = match rng.below(7) {
        0 => &[Way::Alone],
        1 => &[Way::Alone, Way::Alone, Way::Alone, Way::UpTo(3)],
        2 => &[Way::Alone, Way::Even],
        3 => &[Way::UpTo(1), Way::Even],
        4 => &[Way::UpTo(3)],
        5 => &[Way::UpTo(12), Way::Alone],
        _ => &[Way::UpTo(LARGEST)],
    };
    drawn(rng, game, ways)
}

/// One move alone at each set.
pub fn pure_sheet(rng: &mut Rng, game: &Game) -> SheetOdds {
    drawn(rng, game, &[Way::Alone])
}

/// Each set in one of these ways.
fn drawn(rng: &mut Rng, game: &Game, ways: &[Way]) -> SheetOdds {
    let sets = game.sets().iter();
    let by_set = sets.map(|set| ways[rng.below(ways.len())].draw(rng, set.moves));
    SheetOdds {
        by_set: by_set.collect(),
    }
}

/// Sheets whose smallest D is 4,095 or little more, each with its refusal or 0: by one set, by a
/// set and one that follows it, and by two that neither follows the other.
pub fn sheets_at_the_limit(rng: &mut Rng, game: &Game) -> Vec<(SheetOdds, Refusal)> {
    let mut sheets = Vec::new();
    for player in Player::BOTH {
        let mut split = |places: &[Move], sums: &[u64], refusal: Refusal| {
            let mut sheet = pure_sheet(rng, game);
            for (&place, &sum) in places.iter().zip(sums) {
                split_at(&mut sheet, place, sum);
            }
            sheets.push((sheet, refusal));
        };
        if let Some(first) = first_set(game, player) {
            split(&[first], &[4_095], 0);
            split(&[first], &[4_096], 21);
            split(&[first], &[4_099], 21);
        }
        if let Some((first, next)) = set_after_another(game, player) {
            split(&[first, next], &[63, 65], 0);
            split(&[first, next], &[64, 64], 21);
            split(&[first, next], &[17, 241], 21);
        }
        if let Some((one, other)) = two_first_sets(game, player) {
            split(&[one, other], &[63, 65], 0);
            split(&[one, other], &[4_095, 4_095], 0);
            split(&[one, other], &[64, 65], 21);
            split(&[one, other], &[4_095, 2], 21);
        }
    }
    sheets
}

/// Gives a move as little of this sum as can be, and another move of its set the rest.
fn split_at(sheet: &mut SheetOdds, place: Move, sum: u64) {
    let odds = &mut sheet.by_set[place.set];
    let other = (place.number + 1) % odds.len();
    let rest = (sum - 1).min(LARGEST);
    odds.fill(0);
    odds[place.number] = sum - rest;
    odds[other] = rest;
}

fn has_a_choice(game: &Game, set: usize) -> bool {
    game.sets()[set].moves > 1
}

/// The player's sets that the empty sequence leads to, with a choice.
fn first_sets(game: &Game, player: Player) -> Vec<usize> {
    let mut sets = game.sets_of(player);
    sets.retain(|&set| has_a_choice(game, set) && game.leading_sequence_number(set) == Ok(0));
    sets
}

fn move_0(set: usize) -> Move {
    Move { set, number: 0 }
}

fn first_set(game: &Game, player: Player) -> Option<Move> {
    first_sets(game, player).first().copied().map(move_0)
}

fn two_first_sets(game: &Game, player: Player) -> Option<(Move, Move)> {
    match first_sets(game, player)[..] {
        [one, other, ..] => Some((move_0(one), move_0(other))),
        _ => None,
    }
}

/// A move of a first set, and move 0 of a set that it leads to.
fn set_after_another(game: &Game, player: Player) -> Option<(Move, Move)> {
    let sets = game.sets_of(player).into_iter();
    let mut sets = sets.filter(|&set| has_a_choice(game, set));
    sets.find_map(|set| match game.leading_sequence(set).ok()?[..] {
        [first] if has_a_choice(game, first.set) => Some((first, move_0(set))),
        _ => None,
    })
}
