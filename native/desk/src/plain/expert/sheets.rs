//! Play sheets: one pass over the sets in the order of their first nodes. D is what serves the
//! sets so far, and a weight is kept with the D that it was found over.

use super::tree::{Set, Tree};
use super::weights::{read_run, Weights};
use super::ROOM;
use reference::limits::LARGEST;

const HEADER_BYTES: usize = 4;

pub struct Sheets {
    /// Of each player by sequence: its odds, its weight, and the D that this is over.
    odds: [[u16; ROOM]; 2],
    weights: [[u16; ROOM]; 2],
    over: [[u16; ROOM]; 2],
    /// D1 and D2.
    denominators: [u32; 2],
    /// What is written, in plan order.
    run: [u16; ROOM],
}

fn gcd(mut a: u32, mut b: u32) -> u32 {
    while b > 0 {
        (a, b) = (b, a % b);
    }
    a
}

/// The greatest common divisor of all of these, 0 where all are 0.
fn divisor(numbers: &[u16]) -> u32 {
    let mut divisor = 0;
    for &number in numbers {
        divisor = gcd(number.into(), divisor);
        if divisor == 1 {
            break;
        }
    }
    divisor
}

/// How many moves both players have.
fn move_count(sequences: [usize; 2]) -> usize {
    sequences[0] + sequences[1] - 2
}

/// The bytes of so many fields of 12 bits.
fn run_bytes(moves: usize) -> usize {
    (12 * moves).div_ceil(8)
}

impl Sheets {
    pub fn new() -> Sheets {
        Sheets {
            odds: [[0; ROOM]; 2],
            weights: [[0; ROOM]; 2],
            over: [[0; ROOM]; 2],
            denominators: [0; 2],
            run: [0; ROOM],
        }
    }

    /// Checks 19 to 21, with weights and denominators.
    pub fn find(&mut self, tree: &Tree, sheet: &[u8]) -> Option<()> {
        self.read(sheet, tree.sequences)?;
        for player in 0..2 {
            self.denominators[player] = 1;
            self.weights[player][0] = 1;
            self.over[player][0] = 1;
        }
        for &number in &tree.order[..tree.met] {
            self.share_out(&tree.sets[usize::from(number)])?;
        }
        Some(())
    }

    /// Check 19, with the odds.
    fn read(&mut self, sheet: &[u8], sequences: [usize; 2]) -> Option<()> {
        let moves = move_count(sequences);
        if sheet.len() != run_bytes(moves) || moves % 2 == 1 && sheet.last()? & 15 != 0 {
            return None;
        }
        let [first, second] = sequences.map(|count| count - 1);
        read_run(sheet, 0, &mut self.odds[0][1..=first]);
        read_run(sheet, first, &mut self.odds[1][1..=second]);
        Some(())
    }

    /// Shares the weight that leads to a set out among its moves, over the smallest multiple of D
    /// for which all are whole.
    fn share_out(&mut self, set: &Set) -> Option<()> {
        let (player, lead) = (usize::from(set.player), usize::from(set.lead) % ROOM);
        let d = &mut self.denominators[player];
        let (weights, over) = (&mut self.weights[player], &mut self.over[player]);
        let mut leading = u32::from(weights[lead]) * (*d / u32::from(over[lead]));
        if leading == 0 {
            weights[set.sequences()].fill(0);
            over[set.sequences()].fill(1);
            return Some(());
        }
        let odds = &self.odds[player][set.sequences()];
        let divisor = divisor(odds);
        if divisor == 0 {
            return None;
        }
        let sum: u32 = odds.iter().map(|&odds| u32::from(odds)).sum();
        let sum = sum / divisor;
        let factor = sum / gcd(leading, sum);
        *d *= factor;
        leading *= factor;
        if u64::from(*d) > LARGEST {
            return None;
        }
        let unit = leading / sum;
        for (weight, &odds) in weights[set.sequences()].iter_mut().zip(odds) {
            let odds = match divisor {
                1 => u32::from(odds),
                _ => u32::from(odds) / divisor,
            };
            *weight = (odds * unit) as u16;
        }
        over[set.sequences()].fill(*d as u16);
        Some(())
    }

    /// The plan file, none where there is no room for it.
    pub fn put_plan(&mut self, tree: &Tree, out: &mut [u8]) -> Option<usize> {
        let moves = move_count(tree.sequences);
        let length = HEADER_BYTES + run_bytes(moves);
        let (header, weights) = out.get_mut(..length)?.split_first_chunk_mut()?;
        let [d1, d2] = self.denominators;
        *header = (1 << 28 | d1 << 16 | d2 << 4).to_be_bytes();
        for set in &tree.sets[..tree.met] {
            let player = usize::from(set.player);
            let over = self.over[player][usize::from(set.start) % ROOM];
            let factor = self.denominators[player] as u16 / over;
            let own = &self.weights[player][set.sequences()];
            let places = &mut self.run[places(set, tree.sequences)];
            for (place, weight) in places.iter_mut().zip(own) {
                *place = weight * factor;
            }
        }
        put_run(&self.run[..moves], weights);
        Some(length)
    }

    /// The sheet of a plan, none where there is no room for it.
    pub fn put_sheet(&mut self, tree: &Tree, plan: &Weights, out: &mut [u8]) -> Option<usize> {
        let moves = move_count(tree.sequences);
        let out = out.get_mut(..run_bytes(moves))?;
        for set in &tree.sets[..tree.met] {
            let own = &plan.by_number[usize::from(set.player)][set.sequences()];
            let divisor = divisor(own).max(1) as u16;
            let places = &mut self.run[places(set, tree.sequences)];
            for (place, weight) in places.iter_mut().zip(own) {
                *place = match divisor {
                    1 => *weight,
                    _ => weight / divisor,
                };
            }
        }
        put_run(&self.run[..moves], out);
        Some(out.len())
    }
}

/// Where a set's moves stand in plan order.
fn places(set: &Set, sequences: [usize; 2]) -> std::ops::Range<usize> {
    let before = match set.player {
        0 => 0,
        _ => sequences[0] - 1,
    };
    let own = set.sequences();
    before + own.start - 1..before + own.end - 1
}

/// Puts fields of 12 bits, two of them into three bytes; zero bits fill the last one.
fn put_run(run: &[u16], out: &mut [u8]) {
    let (twos, last) = run.as_chunks();
    let (threes, rest) = out.as_chunks_mut();
    for ([first, second], bytes) in twos.iter().zip(threes) {
        let [_, one, two, three] = (u32::from(*first) << 12 | u32::from(*second)).to_be_bytes();
        *bytes = [one, two, three];
    }
    if let ([last], [one, two]) = (last, rest) {
        [*one, *two] = (last << 4).to_be_bytes();
    }
}
