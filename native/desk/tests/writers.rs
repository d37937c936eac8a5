//! The proved library's writers against the independent ones, and round trips through
//! the library alone.

use desk::plain::write::{write_game as plain_game, write_plan as plain_plan, ByFields, ByWord};
use desk::{check_game, game_fields, plan_fields, write_game, write_plan};
use desk::{Buffers, Output, PlanBuffers, Refusal};
use generator::fields::{fitting_fields, refused_fields};
use generator::games::random_game;
use generator::large::{most_nodes, most_sets};
use generator::named::{plan_m, study_game};
use generator::plans::random_plan;
use generator::poker::{kuhn, leduc};
use generator::rng::Rng;
use generator::shape::{random_count, Shape};
use generator::tables::GameTables;
use reference::deliver;
use reference::game::Player;

/// A buffer of this length and a number, each with a pattern of its own.
fn patterned(length: usize) -> Output {
    Output {
        bytes: (0..length).map(|i| 0xa5 ^ i as u8).collect(),
        length: 987_654_321,
    }
}

type Write<'a> = &'a dyn Fn(&mut Output) -> Result<(), Refusal>;

/// The file by the independent writer, or its refusal.
fn file_of(
    room: usize,
    write: impl Fn(&mut [u8]) -> Result<usize, Refusal>,
) -> Result<Vec<u8>, Refusal> {
    let mut bytes = vec![0; room];
    let length = write(&mut bytes)?;
    bytes.truncate(length);
    Ok(bytes)
}

/// A writer in a buffer of this length must give this file or refusal, and no more.
fn compare_room(write: Write, wanted: &Result<Vec<u8>, Refusal>, room: usize) {
    let mut after = patterned(room);
    let answer = wanted.clone().and_then(|file| {
        after.length = deliver(&file, &mut after.bytes)? as u64;
        Ok(())
    });
    let mut out = patterned(room);
    assert_eq!(write(&mut out), answer, "room {room}");
    assert!(out == after, "room {room}: {answer:?}");
}

/// In buffers exactly long enough, longer, one short and empty; the refusal, or 0.
fn compare(writers: [Write; 3], wanted: &Result<Vec<u8>, Refusal>, longest: usize) -> Refusal {
    for write in writers {
        match wanted {
            Ok(file) => {
                compare_room(write, wanted, file.len());
                compare_room(write, wanted, file.len() + 9);
                compare_room(write, wanted, file.len() - 1);
                compare_room(write, wanted, 0);
            }
            Err(_) => {
                compare_room(write, wanted, longest);
                compare_room(write, wanted, 0);
            }
        }
    }
    wanted.as_ref().err().copied().unwrap_or(0)
}

/// A game through the library and plain Rust, whose benchmarks must write the same.
fn compare_game(tables: &GameTables) -> Refusal {
    let fields = Buffers::of(&tables.fields);
    let longest = 5 + fields.set_players.len() + 8 * fields.kinds.len();
    let wanted = file_of(longest, |bytes| {
        reference::writer::write_game(tables.root_weight, &tables.fields, bytes)
    });
    let library = |out: &mut Output| write_game(tables.root_weight, &fields, out);
    let by_fields = |out: &mut Output| plain_game::<ByFields>(tables.root_weight, &fields, out);
    let by_word = |out: &mut Output| plain_game::<ByWord>(tables.root_weight, &fields, out);
    compare([&library, &by_fields, &by_word], &wanted, longest + 8)
}

/// A plan likewise.
fn compare_plan(d1: u64, d2: u64, weights: &[u64]) -> Refusal {
    let longest = 4 + (12 * weights.len()).div_ceil(8);
    let wanted = file_of(longest, |bytes| {
        reference::writer::write_plan(d1, d2, weights, bytes)
    });
    let library = |out: &mut Output| write_plan(d1, d2, weights, out);
    let by_fields = |out: &mut Output| plain_plan::<ByFields>(d1, d2, weights, out);
    let by_word = |out: &mut Output| plain_plan::<ByWord>(d1, d2, weights, out);
    compare([&library, &by_fields, &by_word], &wanted, longest + 8)
}

#[test]
fn any_fields_that_fit_agree() {
    let mut rng = Rng::new(170);
    for _ in 0..2_000 {
        let (sets, nodes) = (rng.below(20), rng.below(30));
        let tables = fitting_fields(&mut rng, sets, nodes);
        assert_eq!(compare_game(&tables), 0);
    }
    for (sets, nodes) in [(0, 0), (4_095, 0), (0, 4_095), (4_095, 4_095), (300, 2_500)] {
        let tables = fitting_fields(&mut rng, sets, nodes);
        assert_eq!(compare_game(&tables), 0);
    }
}

#[test]
fn each_thing_that_does_not_fit_gets_17() {
    let mut rng = Rng::new(171);
    let mut met = 0;
    for round in 0..80 {
        let (sets, nodes) = match round {
            0 => (0, 0),
            1 => (1, 1),
            2 => (4_095, 4_095),
            _ => (rng.below(12), rng.below(16)),
        };
        let tables = fitting_fields(&mut rng, sets, nodes);
        for refused in refused_fields(&mut rng, &tables) {
            assert_eq!(compare_game(&refused), 17);
            met += 1;
        }
    }
    assert!(met > 6_000, "{met}");
}

#[test]
fn tables_longer_than_their_counts_can_hold_get_17() {
    let mut rng = Rng::new(172);
    for (sets, nodes) in [
        (4_096, 0),
        (0, 4_096),
        (4_096, 4_096),
        (4_097, 3),
        (3, 4_099),
    ] {
        let tables = fitting_fields(&mut rng, sets, nodes);
        assert_eq!(compare_game(&tables), 17);
    }
    for (sets, nodes) in [(8_192, 1), (1, 8_193), (70_000, 70_000)] {
        let tables = fitting_fields(&mut rng, sets, nodes);
        assert_eq!(compare_game(&tables), 17);
    }
}

#[test]
fn plans_that_fit_agree() {
    let mut rng = Rng::new(173);
    for round in 0..1_500 {
        let length = match round {
            0..=40 => round,
            41 => 4_094,
            42 => 4_095,
            43 => 5_001,
            44 => 40_000,
            _ => rng.below(70),
        };
        let weights: Vec<u64> = (0..length).map(|_| rng.between(0, 4_095)).collect();
        let [d1, d2] = [0, 1].map(|_| rng.between(0, 4_095));
        assert_eq!(compare_plan(d1, d2, &weights), 0);
    }
    assert_eq!(compare_plan(0, 0, &[]), 0);
    assert_eq!(compare_plan(4_095, 4_095, &[4_095; 33]), 0);
}

#[test]
fn plan_numbers_that_do_not_fit_get_17() {
    let mut rng = Rng::new(174);
    let wide = [4_096, 4_097, 8_191, 65_536, 1 << 32, 1 << 63, u64::MAX];
    for round in 0..300 {
        let length = 1 + round % 25;
        let mut weights: Vec<u64> = (0..length).map(|_| rng.between(0, 4_095)).collect();
        let [d1, d2] = [0, 1].map(|_| random_count(&mut rng));
        let number = wide[round % wide.len()];
        assert_eq!(compare_plan(number, d2, &weights), 17);
        assert_eq!(compare_plan(d1, number, &weights), 17);
        weights[rng.below(length)] = number;
        assert_eq!(compare_plan(d1, d2, &weights), 17);
    }
}

/// Buffers of exactly these lengths.
fn room_for(sets: usize, nodes: usize) -> Buffers {
    Buffers {
        set_players: vec![9; sets],
        set_moves: vec![9; sets],
        kinds: vec![9; nodes],
        parents: vec![9; nodes],
        moves: vec![9; nodes],
        weights: vec![9; nodes],
        node_sets: vec![9; nodes],
        chance_moves: vec![9; nodes],
        payoffs: [vec![9; nodes], vec![9; nodes]],
    }
}

/// An accepted file's fields, written by the library, are its bytes.
fn game_comes_back(file: &[u8]) -> Buffers {
    let counts = check_game(file).expect("accepted");
    let mut fields = room_for(counts.sets as usize, counts.nodes as usize);
    assert_eq!(game_fields(file, &mut fields), Ok(()));
    let mut out = patterned(file.len());
    assert_eq!(write_game(counts.root_weight, &fields, &mut out), Ok(()));
    assert_eq!(out.length, file.len() as u64);
    assert!(out.bytes == file);
    fields
}

/// An accepted plan's fields, written by the library, are its bytes.
fn plan_comes_back(game: &[u8], plan: &[u8], moves: usize) -> PlanBuffers {
    let mut fields = PlanBuffers {
        d1: 0,
        d2: 0,
        weights: vec![9; moves],
    };
    assert_eq!(plan_fields(game, plan, &mut fields), Ok(()));
    let mut out = patterned(plan.len());
    let written = write_plan(fields.d1, fields.d2, &fields.weights, &mut out);
    assert_eq!(written, Ok(()));
    assert_eq!(out.length, plan.len() as u64);
    assert!(out.bytes == plan);
    fields
}

/// A game and a plan of it through the library's writers and readers, both ways.
fn round_trip(rng: &mut Rng, tables: &GameTables) {
    let given = Buffers::of(&tables.fields);
    let mut out = patterned(5 + given.set_players.len() + 8 * given.kinds.len());
    assert_eq!(write_game(tables.root_weight, &given, &mut out), Ok(()));
    let counts = check_game(&out.bytes).expect("accepted");
    assert_eq!(counts.root_weight, tables.root_weight);
    assert_eq!(game_comes_back(&out.bytes), given);

    let game = reference::game::check_game(&out.bytes).expect("accepted");
    let [d1, d2] = [0, 1].map(|_| random_count(rng));
    let plan = random_plan(rng, &game, [d1, d2]);
    let weights = Player::BOTH.map(|player| &plan.weights[player.index()][1..]);
    let given = PlanBuffers {
        d1,
        d2,
        weights: weights.concat(),
    };
    let mut file = patterned(4 + (12 * given.weights.len()).div_ceil(8));
    assert_eq!(write_plan(d1, d2, &given.weights, &mut file), Ok(()));
    let read = plan_comes_back(&out.bytes, &file.bytes, given.weights.len());
    assert_eq!(read, given);
}

#[test]
fn games_and_plans_come_back_as_they_were() {
    let mut rng = Rng::new(175);
    for round in 0..1_000 {
        let shape = match round % 2 {
            0 => Shape::crowded(&mut rng, 60),
            _ => Shape::random(&mut rng, 100, 64),
        };
        let tables = random_game(&mut rng, &shape);
        round_trip(&mut rng, &tables);
    }
    let full = Shape::full(&mut rng);
    let full = random_game(&mut rng, &full);
    for tables in [full, most_nodes(), most_sets(), kuhn(), leduc()] {
        round_trip(&mut rng, &tables);
    }
}

/// What is written is judged by the reader alone: its refusal, or the fields again.
#[test]
fn fields_of_no_legal_game_are_written_and_refused_when_read() {
    let mut rng = Rng::new(176);
    let mut met = [0; 14];
    for _ in 0..600 {
        let (sets, nodes) = (rng.below(3), rng.below(4));
        let tables = fitting_fields(&mut rng, sets, nodes);
        let file = tables.bytes().expect("fields that fit");
        let mut out = patterned(file.len());
        let fields = Buffers::of(&tables.fields);
        assert_eq!(write_game(tables.root_weight, &fields, &mut out), Ok(()));
        assert_eq!(out.bytes, file);
        match check_game(&out.bytes) {
            Ok(_) => {
                met[0] += 1;
                assert_eq!(game_comes_back(&out.bytes), fields);
            }
            Err(refusal) => met[refusal as usize] += 1,
        }
    }
    assert!(met[3] > 50 && met[5] > 50 && met[8] > 10, "{met:?}");
}

/// The bytes that document 01 gives.
#[test]
fn the_study_game_and_plan_m_have_document_01s_bytes() {
    let fields = Buffers::of(&study_game().fields);
    let mut game = patterned(80);
    assert_eq!(write_game(1, &fields, &mut game), Ok(()));
    assert_eq!(game.length, 80);
    assert_eq!(
        game.bytes[..8],
        [0x10, 0x09, 0x00, 0x30, 0x01, 0x02, 0x82, 0x02]
    );
    let node_2 = [0x00, 0x00, 0x10, 0x01, 0x00, 0x03, 0x00, 0x03];
    let node_8 = [0x00, 0x10, 0x10, 0x01, 0x00, 0x06, 0x00, 0x01];
    assert_eq!(game.bytes[24..32], node_2);
    assert_eq!(game.bytes[72..80], node_8);
    let mut plan = patterned(13);
    assert_eq!(write_plan(3, 3, &[3, 0, 1, 2, 1, 2], &mut plan), Ok(()));
    let m = [
        0x10, 0x03, 0x00, 0x30, 0x00, 0x30, 0x00, 0x00, 0x10, 0x02, 0x00, 0x10, 0x02,
    ];
    assert_eq!(plan.bytes, m);
    assert_eq!(plan_m().bytes(), Ok(m.to_vec()));
    let read = plan_comes_back(&game.bytes, &plan.bytes, 6);
    assert_eq!(read.weights, [3, 0, 1, 2, 1, 2]);
}
