//! The proved library against the independent implementation, on game files.

use desk::{check_game, expected, game_fields, plain, Buffers, Counts, Refusal};
use generator::aim::aim_at_game;
use generator::damage::random_damage;
use generator::games::random_game;
use generator::rng::Rng;
use generator::shape::Shape;
use reference::game::Game;
use reference::writer::{fields_of, Fields};

/// What the independent implementation says of a game file.
fn judged(file: &[u8]) -> Result<(Counts, Game), Refusal> {
    let game = reference::game::check_game(file)?;
    Ok((expected::counts(&game), game))
}

/// Buffers of these lengths, each filled with a pattern of its own.
fn patterned(sets: usize, nodes: usize) -> Buffers {
    let unsigned = |seed: u64, length: usize| (0..length as u64).map(|i| seed * 7919 + i).collect();
    let signed = |seed: i64, length: usize| (0..length as i64).map(|i| -seed * 7919 - i).collect();
    Buffers {
        set_players: unsigned(1, sets),
        set_moves: unsigned(2, sets),
        kinds: unsigned(3, nodes),
        parents: unsigned(4, nodes),
        moves: unsigned(5, nodes),
        weights: unsigned(6, nodes),
        node_sets: unsigned(7, nodes),
        chance_moves: unsigned(8, nodes),
        payoffs: [signed(9, nodes), signed(10, nodes)],
    }
}

fn laid_over<T: Copy>(result: &[T], buffer: &[T]) -> Vec<T> {
    let past = &buffer[result.len()..];
    result.iter().chain(past).copied().collect()
}

/// The buffers after a call that gives these fields: what lies past a result stays.
fn filled(fields: &Fields, before: &Buffers) -> Buffers {
    Buffers {
        set_players: laid_over(&fields.players, &before.set_players),
        set_moves: laid_over(&fields.set_moves, &before.set_moves),
        kinds: laid_over(&fields.kinds, &before.kinds),
        parents: laid_over(&fields.parents, &before.parents),
        moves: laid_over(&fields.moves, &before.moves),
        weights: laid_over(&fields.weights, &before.weights),
        node_sets: laid_over(&fields.sets, &before.node_sets),
        chance_moves: laid_over(&fields.chance_moves, &before.chance_moves),
        payoffs: [
            laid_over(&fields.payoffs[0], &before.payoffs[0]),
            laid_over(&fields.payoffs[1], &before.payoffs[1]),
        ],
    }
}

/// One file through every export that takes a game; the refusal, or 0.
fn compare(file: &[u8]) -> Refusal {
    let wanted = judged(file);
    let counts = wanted.as_ref().map(|(counts, _)| *counts).map_err(|&k| k);
    assert_eq!(check_game(file), counts);
    assert_eq!(plain::check_game::<plain::BitLoop>(file), counts);
    assert_eq!(plain::check_game::<plain::Word>(file), counts);
    match wanted {
        Ok((counts, game)) => {
            compare_fields(file, counts, &fields_of(&game));
            0
        }
        Err(refusal) => {
            let before = patterned(3, 3);
            let mut after = before.clone();
            assert_eq!(game_fields(file, &mut after), Err(refusal));
            assert_eq!(after, before);
            refusal
        }
    }
}

fn compare_fields(file: &[u8], counts: Counts, fields: &Fields) {
    let (sets, nodes) = (counts.sets as usize, counts.nodes as usize);
    for extra in [0, 2] {
        let before = patterned(sets + extra, nodes + extra);
        let mut after = before.clone();
        assert_eq!(game_fields(file, &mut after), Ok(()));
        assert_eq!(after, filled(fields, &before));
    }
    for which in 0..10 {
        let mut short = patterned(sets, nodes);
        if shorten(&mut short, which) {
            let mut after = short.clone();
            assert_eq!(game_fields(file, &mut after), Err(18), "{which}");
            assert_eq!(after, short);
        }
    }
}

/// Takes an entry from one of the ten buffers, if it has one.
fn shorten(buffers: &mut Buffers, which: usize) -> bool {
    match which {
        0 => buffers.set_players.pop().is_some(),
        1 => buffers.set_moves.pop().is_some(),
        2 => buffers.kinds.pop().is_some(),
        3 => buffers.parents.pop().is_some(),
        4 => buffers.moves.pop().is_some(),
        5 => buffers.weights.pop().is_some(),
        6 => buffers.node_sets.pop().is_some(),
        7 => buffers.chance_moves.pop().is_some(),
        _ => buffers.payoffs[which - 8].pop().is_some(),
    }
}

fn shape_of(rng: &mut Rng, round: usize) -> Shape {
    match round % 100 {
        0 => Shape::full(rng),
        1 => Shape::deep(rng),
        2..=20 => Shape::crowded(rng, 300),
        _ => Shape::random(rng, 120, 64),
    }
}

#[test]
fn generated_and_damaged_games_agree() {
    let mut rng = Rng::new(4095);
    let mut met = [0; 14];
    for round in 0..1_500 {
        let shape = shape_of(&mut rng, round);
        let file = random_game(&mut rng, &shape)
            .bytes()
            .expect("a game that fits");
        assert_eq!(compare(&file), 0);
        let game = reference::game::check_game(&file).expect("accepted");
        for refusal in 1..=13 {
            if let Some(damaged) = aim_at_game(&mut rng, &game, refusal) {
                met[compare(&damaged) as usize] += 1;
            }
        }
        for _ in 0..3 {
            met[compare(&random_damage(&mut rng, &file)) as usize] += 1;
        }
    }
    assert!(met[1..].iter().all(|&count| count > 100), "{met:?}");
    assert!(met.iter().sum::<usize>() > 10_000, "{met:?}");
}

#[test]
fn arbitrary_bytes_get_their_number() {
    let mut rng = Rng::new(17);
    for length in [0, 1, 4, 5, 6, 13, 80, 36_860, 36_861, 1 << 20] {
        for _ in 0..20 {
            let mut file: Vec<u8> = (0..length).map(|_| rng.word() as u8).collect();
            compare(&file);
            if let Some(first) = file.first_mut() {
                *first = 0x10 | *first & 0x0f;
                compare(&file);
            }
        }
    }
}
