//! The writers: one pass a list for 17, then the bytes, a record field by field or as one word,
//! and a plan's weights bit by bit.

use super::LIMIT;
use crate::{Buffers, Output, Refusal};

fn all_fit(numbers: &[u64], width: usize) -> bool {
    numbers.iter().all(|&number| number < 1 << width)
}

fn all_fit_signed(numbers: &[i64]) -> bool {
    let fits = |number: &i64| (-32_768..=32_767).contains(number);
    numbers.iter().all(fits)
}

/// A field of a record: its width and its number.
type Field = (usize, u64);

/// How a record is put from byte `from` on; its fields fill whole bytes.
pub trait Put {
    fn put(out: &mut [u8], from: usize, fields: &[Field]);
}

/// Each field by itself, as the proved writer does.
pub struct ByFields;

impl Put for ByFields {
    fn put(out: &mut [u8], from: usize, fields: &[Field]) {
        let mut at = 8 * from;
        for &(width, number) in fields {
            put_field(out, at, width, number);
            at += width;
        }
    }
}

/// All fields joined into one word.
pub struct ByWord;

impl Put for ByWord {
    fn put(out: &mut [u8], from: usize, fields: &[Field]) {
        let join = |(bits, word), &(width, number): &Field| (bits + width, word << width | number);
        let (bits, word) = fields.iter().fold((0, 0), join);
        put_word(out, from, bits / 8, word);
    }
}

/// A byte with a number in the `width` bits from bit `at` on.
fn part_put(byte: u8, at: usize, width: usize, number: u64) -> u8 {
    let byte = u64::from(byte);
    let rest = 8 - (at + width);
    let first = byte >> (8 - at);
    let last = byte & ((1 << rest) - 1);
    ((first << width | number) << rest | last) as u8
}

/// Puts a number in the `width` bits from bit `at` on; each byte that has some of them is stored
/// once.
fn put_field(out: &mut [u8], at: usize, width: usize, number: u64) {
    let mut done = 0;
    while done < width {
        let (i, place) = ((at + done) / 8, (at + done) % 8);
        let left = width - done;
        let count = left.min(8 - place);
        let part = number >> (left - count) & ((1 << count) - 1);
        out[i] = part_put(out[i], place, count, part);
        done += count;
    }
}

/// Puts the last `count` bytes of a word at `from`, most significant first.
fn put_word(out: &mut [u8], from: usize, count: usize, word: u64) {
    for i in 0..count {
        out[from + i] = (word >> (8 * (count - 1 - i)) & 0xff) as u8;
    }
}

/// Bit `at` of a run of equal fields; 0 past its end.
fn run_bit(numbers: &[u64], width: usize, at: usize) -> u64 {
    match numbers.get(at / width) {
        Some(&number) => number >> (width - 1 - at % width) & 1,
        None => 0,
    }
}

/// Puts a run of equal fields from byte `from` on; zero bits fill the last byte.
pub(super) fn put_run(out: &mut [u8], from: usize, numbers: &[u64], width: usize) {
    for j in 0..(width * numbers.len()).div_ceil(8) {
        let mut byte = 0;
        for i in 0..8 {
            byte = 2 * byte + run_bit(numbers, width, 8 * j + i);
        }
        out[from + j] = byte as u8;
    }
}

fn side_by_side(fields: &Buffers) -> bool {
    let nodes = fields.kinds.len();
    fields.set_moves.len() == fields.set_players.len()
        && fields.parents.len() == nodes
        && fields.moves.len() == nodes
        && fields.weights.len() == nodes
        && fields.node_sets.len() == nodes
        && fields.chance_moves.len() == nodes
        && fields.payoffs.iter().all(|list| list.len() == nodes)
}

fn numbers_fit(root_weight: u64, fields: &Buffers) -> bool {
    fields.set_players.len() <= LIMIT
        && fields.kinds.len() <= LIMIT
        && all_fit(&[root_weight], 12)
        && all_fit(&fields.set_players, 1)
        && all_fit(&fields.set_moves, 7)
        && all_fit(&fields.parents, 12)
        && all_fit(&fields.moves, 6)
        && all_fit(&fields.weights, 12)
        && all_fit(&fields.node_sets, 12)
        && all_fit(&fields.chance_moves, 7)
        && fields.payoffs.iter().all(|list| all_fit_signed(list))
}

fn kind_fits(fields: &Buffers, n: usize) -> bool {
    let no_set = fields.node_sets[n] == 0;
    let no_moves = fields.chance_moves[n] == 0;
    let no_payoffs = fields.payoffs.iter().all(|list| list[n] == 0);
    match fields.kinds[n] {
        0 => no_set && no_moves,
        1 => no_moves && no_payoffs,
        2 => no_set && no_payoffs,
        _ => false,
    }
}

/// The two fields of a node's payload.
fn payload(fields: &Buffers, n: usize) -> [Field; 2] {
    match fields.kinds[n] {
        0 => [0, 1].map(|player: usize| (16, u64::from(fields.payoffs[player][n] as u16))),
        1 => [(12, fields.node_sets[n]), (20, 0)],
        _ => [(7, fields.chance_moves[n]), (25, 0)],
    }
}

fn put_node<P: Put>(out: &mut [u8], from: usize, fields: &Buffers, n: usize) {
    let [one, two] = payload(fields, n);
    let record = [
        (2, fields.kinds[n]),
        (12, fields.parents[n]),
        (6, fields.moves[n]),
        (12, fields.weights[n]),
        one,
        two,
    ];
    P::put(out, from, &record);
}

/// A game file: 17, then 18.
pub fn write_game<P: Put>(
    root_weight: u64,
    fields: &Buffers,
    out: &mut Output,
) -> Result<(), Refusal> {
    let (sets, nodes) = (fields.set_players.len(), fields.kinds.len());
    if !side_by_side(fields)
        || !numbers_fit(root_weight, fields)
        || !(0..nodes).all(|n| kind_fits(fields, n))
    {
        return Err(17);
    }
    let length = 5 + sets + 8 * nodes;
    if out.bytes.len() < length {
        return Err(18);
    }
    let header = [
        (4, 1),
        (12, nodes as u64),
        (12, sets as u64),
        (12, root_weight),
    ];
    P::put(&mut out.bytes, 0, &header);
    for h in 0..sets {
        let entry = [(1, fields.set_players[h]), (7, fields.set_moves[h])];
        P::put(&mut out.bytes, 5 + h, &entry);
    }
    for n in 0..nodes {
        put_node::<P>(&mut out.bytes, 5 + sets + 8 * n, fields, n);
    }
    out.length = length as u64;
    Ok(())
}

/// A plan file: 17, then 18.
pub fn write_plan<P: Put>(
    d1: u64,
    d2: u64,
    weights: &[u64],
    out: &mut Output,
) -> Result<(), Refusal> {
    if !all_fit(&[d1, d2], 12) || !all_fit(weights, 12) {
        return Err(17);
    }
    let length = 4 + (12 * weights.len()).div_ceil(8);
    if out.bytes.len() < length {
        return Err(18);
    }
    put_plan::<P>(d1, d2, weights, &mut out.bytes);
    out.length = length as u64;
    Ok(())
}

/// The header of a plan file, and the weights after it.
pub(super) fn put_plan<P: Put>(d1: u64, d2: u64, weights: &[u64], out: &mut [u8]) {
    P::put(out, 0, &[(4, 1), (12, d1), (12, d2), (4, 0)]);
    put_run(out, 4, weights, 12);
}
