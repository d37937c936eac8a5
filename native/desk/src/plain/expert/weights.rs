//! The weights of a plan by sequence number, with checks 14 to 16.

use super::tree::Set;
use super::ROOM;

const HEADER_BYTES: usize = 4;

pub struct Weights {
    /// Of each player, D1 or D2 first.
    pub by_number: [[u16; ROOM]; 2],
}

impl Weights {
    pub fn new() -> Weights {
        Weights {
            by_number: [[0; ROOM]; 2],
        }
    }

    /// Checks 14 and 15, with the weights of so many sequences of each player.
    pub fn read(&mut self, plan: &[u8], sequences: [usize; 2]) -> Option<()> {
        let [first, second] = sequences.map(|count| count - 1);
        let moves = first + second;
        if plan.len() != HEADER_BYTES + (12 * moves).div_ceil(8) {
            return None;
        }
        let (&header, weights) = plan.split_first_chunk()?;
        self.read_header(u32::from_be_bytes(header))?;
        if moves % 2 == 1 && weights.last()? & 15 != 0 {
            return None;
        }
        read_run(weights, 0, &mut self.by_number[0][1..=first]);
        read_run(weights, first, &mut self.by_number[1][1..=second]);
        Some(())
    }

    fn read_header(&mut self, header: u32) -> Option<()> {
        let [d1, d2] = [header >> 16, header >> 4].map(|word| word as u16 & 4_095);
        self.by_number[0][0] = d1;
        self.by_number[1][0] = d2;
        let holds = header >> 28 == 1 && d1 > 0 && d2 > 0 && header & 15 == 0;
        holds.then_some(())
    }

    /// Whether the weights of a set's moves add up to that of its leading sequence.
    pub fn fit(&self, set: &Set) -> bool {
        let weights = &self.by_number[usize::from(set.player)];
        let own = weights[set.sequences()].iter();
        let sum: u32 = own.map(|&weight| u32::from(weight)).sum();
        sum == weights[usize::from(set.lead) % ROOM].into()
    }

    /// D1 and D2.
    pub fn denominators(&self) -> [u64; 2] {
        [0, 1].map(|player: usize| self.by_number[player][0].into())
    }

    /// The weights of each player's moves.
    pub fn of_moves(&self, sequences: [usize; 2]) -> [&[u16]; 2] {
        [0, 1].map(|player| &self.by_number[player][1..sequences[player]])
    }
}

/// Reads weights from number `from` on, two of them from three bytes, but a first and a last one
/// that share their bytes with others.
pub fn read_run(weights: &[u8], from: usize, out: &mut [u16]) {
    let (odd, rest) = out.split_at_mut(out.len().min(from % 2));
    odd.fill_with(|| weight_at(weights, from));
    let from = from + odd.len();
    let (twos, last) = rest.as_chunks_mut();
    let (threes, _) = weights[from / 2 * 3..].as_chunks();
    for ([first, second], &[one, two, three]) in twos.iter_mut().zip(threes) {
        *first = u16::from_be_bytes([one, two]) >> 4;
        *second = u16::from_be_bytes([two, three]) & 4_095;
    }
    last.fill_with(|| weight_at(weights, from + 2 * twos.len()));
}

fn weight_at(weights: &[u8], at: usize) -> u16 {
    let byte = at * 3 / 2;
    let two = u16::from_be_bytes([weights[byte], weights[byte + 1]]);
    match at % 2 {
        0 => two >> 4,
        _ => two & 4_095,
    }
}
