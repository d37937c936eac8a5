//! Plan files: a realization plan for each player, checked against a game.

use crate::bits::BitReader;
use crate::game::{Game, InfoSet, Player};
use crate::{require, Refusal};

const EDITION: u64 = 1;
const HEADER_BYTES: usize = 4;
const WEIGHT_BITS: usize = 12;

/// A plan pair that fits its game.
#[derive(Clone, Debug, PartialEq, Eq)]
pub struct Plan<'g> {
    game: &'g Game,
    /// Per player the weights by sequence number, D1 or D2 first.
    weights: [Vec<u64>; 2],
}

impl<'g> Plan<'g> {
    pub fn game(&self) -> &'g Game {
        self.game
    }

    /// The player's weights by sequence number.
    pub fn weights(&self, player: Player) -> &[u64] {
        &self.weights[player.index()]
    }

    /// D1 or D2, the weight of the empty sequence.
    pub fn denominator(&self, player: Player) -> u64 {
        self.weights(player)[0]
    }

    /// D0 × D1 × D2, which values and gains are counted over.
    pub fn value_base(&self) -> u64 {
        let [d1, d2] = Player::BOTH.map(|player| self.denominator(player));
        self.game.root_weight() * d1 * d2
    }

    /// All move weights as one list, as the file holds them.
    pub fn weights_in_file_order(&self) -> Vec<u64> {
        let moves = Player::BOTH.map(|player| &self.weights(player)[1..]);
        moves.concat()
    }
}

/// The length of the plan files of a game.
pub fn plan_length(game: &Game) -> usize {
    let moves: usize = game.sets().iter().map(|set| set.moves).sum();
    HEADER_BYTES + (WEIGHT_BITS * moves).div_ceil(8)
}

/// Reads a plan file, or gives the first of refusals 14 to 16 that applies.
pub fn check_plan<'g>(game: &'g Game, file: &[u8]) -> Result<Plan<'g>, Refusal> {
    require(file.len() == plan_length(game), 14)?;
    let raw = read_file(game, file).ok_or(14)?;
    require(raw.header_and_filling_hold(), 15)?;
    let weights = raw.weights;
    let plan = Plan { game, weights };
    require(fits_game(&plan), 16)?;
    Ok(plan)
}

/// Everything that stands in a plan file.
struct RawPlan {
    edition: u64,
    header_zeros: u64,
    /// As in `Plan`.
    weights: [Vec<u64>; 2],
    filling: u64,
}

impl RawPlan {
    fn header_and_filling_hold(&self) -> bool {
        let whole = self.weights.iter().all(|list| list[0] > 0);
        self.edition == EDITION && whole && self.header_zeros == 0 && self.filling == 0
    }
}

fn read_file(game: &Game, file: &[u8]) -> Option<RawPlan> {
    let mut reader = BitReader::new(file);
    let edition = reader.read(4)?;
    let mut weights = [vec![reader.read(12)?], vec![reader.read(12)?]];
    let header_zeros = reader.read(4)?;
    for player in Player::BOTH {
        for _ in 1..game.sequence_count(player) {
            weights[player.index()].push(reader.read(WEIGHT_BITS)?);
        }
    }
    let filling = reader.read(reader.remaining())?;
    Some(RawPlan {
        edition,
        header_zeros,
        weights,
        filling,
    })
}

/// In each set the move weights add up to the weight of the leading sequence.
fn fits_game(plan: &Plan) -> bool {
    (0..plan.game.sets().len()).all(|set| set_fits(plan, set))
}

fn set_fits(plan: &Plan, set: usize) -> bool {
    let InfoSet { player, moves } = plan.game.sets()[set];
    let weights = plan.weights(player);
    let first = plan.game.first_sequence(set);
    let sum: u64 = weights[first..first + moves].iter().sum();
    let leading = plan.game.leading_sequence_number(set);
    leading.map(|sequence| weights[sequence]) == Ok(sum)
}
