//! The proved library against the independent implementation: the payoff table, values and
//! best values.

use desk::form::{payoff_table, values, TableBuffers, Values};
use desk::{expected, plain, Refusal};
use generator::aim::{aim_at_game, aim_at_plan};
use generator::damage::random_damage;
use generator::games::random_game;
use generator::large::{most_nodes, most_sets};
use generator::named::{
    one_leaf, own_chain, plan_f, plan_m, plan_q, plan_r_against_thirds, study_game, wide_chance,
    wide_decision,
};
use generator::plans::{even_plan, random_plan, random_pure_plan};
use generator::poker::{kuhn, kuhn_equilibrium, leduc};
use generator::refused_plans::{misfits, wrong_headers, wrong_lengths};
use generator::rng::Rng;
use generator::shape::{random_count, Payoffs, Shape};
use generator::tables::{GameTables, Place, PlanWeights};
use reference::form::{table_value_count, value_count, Row};
use reference::game::{check_game, Game, Kind, Player};
use reference::plan::{check_plan, Plan};

/// Buffers of these lengths, each with a pattern of its own.
fn patterned(lengths: [usize; 4]) -> TableBuffers {
    let unsigned = |seed: u64, length: usize| (0..length as u64).map(|i| seed + i).collect();
    let signed = |seed: i64, length: usize| (0..length as i64).map(|i| -seed - i).collect();
    TableBuffers {
        sequences: [unsigned(71_000, lengths[0]), unsigned(82_000, lengths[1])],
        sums: [signed(93_000, lengths[2]), signed(64_000, lengths[3])],
        rows: 987_654,
    }
}

/// The front of a buffer overlaid with a result.
fn lay<T: Copy>(buffer: &mut [T], result: &[T]) {
    buffer[..result.len()].copy_from_slice(result);
}

/// The buffers after a call that gives this table: what lies past it stays.
fn filled(table: &TableBuffers, before: &TableBuffers) -> TableBuffers {
    let mut after = before.clone();
    for player in 0..2 {
        lay(&mut after.sequences[player], &table.sequences[player]);
        lay(&mut after.sums[player], &table.sums[player]);
    }
    after.rows = table.rows;
    after
}

/// A call with buffers of these lengths must give this answer, and no more.
fn compare_lengths(file: &[u8], wanted: &Result<TableBuffers, Refusal>, lengths: [usize; 4]) {
    let before = patterned(lengths);
    let (answer, after) = match wanted {
        Ok(table) if lengths.iter().all(|&length| table.rows <= length as u64) => {
            (Ok(()), filled(table, &before))
        }
        Ok(_) => (Err(18), before.clone()),
        Err(refusal) => (Err(*refusal), before.clone()),
    };
    let mut buffers = before.clone();
    assert_eq!(payoff_table(file, &mut buffers), answer, "{lengths:?}");
    assert!(buffers == after, "{lengths:?}");
}

/// The same file through plain Rust.
fn compare_plain(file: &[u8], wanted: &Result<TableBuffers, Refusal>) {
    let tables = [
        plain::table::payoff_table::<plain::BitLoop>,
        plain::table::payoff_table::<plain::Word>,
    ];
    let before = patterned([wanted.as_ref().map_or(4, |table| table.rows as usize); 4]);
    for table in tables {
        let mut buffers = before.clone();
        let answer = table(file, &mut buffers);
        assert_eq!(&answer.map(|()| buffers), wanted);
    }
}

/// A table in buffers exactly long enough, longer, and each too short in turn.
fn compare_table(file: &[u8], game: Result<&Game, Refusal>) {
    let wanted = game.map(expected::payoff_table);
    compare_plain(file, &wanted);
    let Ok(table) = &wanted else {
        compare_lengths(file, &wanted, [4_095; 4]);
        compare_lengths(file, &wanted, [3, 2, 1, 0]);
        compare_lengths(file, &wanted, [0; 4]);
        return;
    };
    let count = table.rows as usize;
    compare_lengths(file, &wanted, [count; 4]);
    compare_lengths(file, &wanted, [count + 1, count + 4, count + 3, count + 2]);
    compare_lengths(file, &wanted, [0; 4]);
    for short in 0..4 {
        let mut lengths = [count; 4];
        lengths[short] = count - 1;
        compare_lengths(file, &wanted, lengths);
    }
}

const UNTOUCHED: Values = Values {
    values: [-123_456, 654_321],
    bests: [111_111, -222_222],
    weights: [33_333, 44_444, 55_555],
};

/// What is expected, once the payoff table gives the same values.
fn values_of(plan: &Plan) -> Values {
    for player in Player::BOTH {
        let value = value_count(plan, player);
        assert_eq!(value, table_value_count(plan, player));
    }
    expected::values(plan)
}

/// Values and best values of a pair; the refusal, or 0.
fn compare_values(file: &[u8], game: Result<&Game, Refusal>, plan: &[u8]) -> Refusal {
    let wanted = game.and_then(|game| check_plan(game, plan).map(|plan| values_of(&plan)));
    let (answer, after) = match wanted {
        Ok(given) => (Ok(()), given),
        Err(refusal) => (Err(refusal), UNTOUCHED),
    };
    let readers = [
        values,
        plain::form::values::<plain::BitLoop>,
        plain::form::values::<plain::Word>,
    ];
    for read in readers {
        let mut out = UNTOUCHED;
        assert_eq!(read(file, plan, &mut out), answer);
        assert_eq!(out, after);
    }
    answer.err().unwrap_or(0)
}

/// The same with the game still to be read.
fn compare_files(file: &[u8], plan: &[u8]) -> Refusal {
    let game = check_game(file);
    let game = game.as_ref().map_err(|&refusal| refusal);
    compare_table(file, game);
    compare_values(file, game, plan)
}

fn generated(rng: &mut Rng, shape: &Shape) -> Vec<u8> {
    let tables = random_game(rng, shape);
    tables.bytes().expect("a game that fits")
}

/// Four plans for a game, the last of 4,095 and 4,095.
fn plans_of(rng: &mut Rng, game: &Game) -> [Vec<u8>; 4] {
    let denominators = [random_count(rng), random_count(rng)];
    let plans = [
        random_plan(rng, game, denominators),
        random_pure_plan(rng, game),
        even_plan(game, denominators),
        random_plan(rng, game, [4_095, 4_095]),
    ];
    plans.map(|plan| plan.bytes().expect("a plan that fits"))
}

/// A game's table, and the values of four plans.
fn compare_game(rng: &mut Rng, file: &[u8]) -> Game {
    let game = check_game(file).expect("accepted");
    compare_table(file, Ok(&game));
    for plan in plans_of(rng, &game) {
        assert_eq!(compare_values(file, Ok(&game), &plan), 0);
    }
    game
}

/// How many of the games had something of each kind.
#[derive(Debug, Default)]
struct Met {
    games: usize,
    several_leaves_on_a_pair: usize,
    sums_that_cancel: usize,
    chance: usize,
    sets_after_larger_ones: usize,
    a_player_without_sets: usize,
    negative_sums_alone: usize,
}

impl Met {
    fn count(&mut self, game: &Game) {
        let (rows, leaves) = (reference::form::payoff_table(game), game.leaves());
        let cancels = |row: &Row| {
            let own = leaves.iter().filter(|leaf| leaf.sequences == row.sequences);
            let mut own = own.map(|leaf| leaf.payoffs[0]);
            row.sums[0] == 0 && own.any(|payoff| payoff != 0)
        };
        let after_larger = |set: usize| {
            let leading = game.leading_sequence(set).unwrap_or_default();
            leading.iter().any(|choice| choice.set > set)
        };
        let is_chance = |kind: Kind| matches!(kind, Kind::Chance { .. });
        self.games += 1;
        self.several_leaves_on_a_pair += usize::from(rows.len() < leaves.len());
        self.sums_that_cancel += usize::from(rows.iter().any(cancels));
        self.chance += usize::from(game.nodes().iter().any(|node| is_chance(node.kind)));
        self.sets_after_larger_ones += usize::from((0..game.sets().len()).any(after_larger));
        let without = |&player: &Player| game.sets_of(player).is_empty();
        self.a_player_without_sets += usize::from(Player::BOTH.iter().any(without));
        let negative = |row: &Row| row.sums.iter().all(|&sum| sum < 0);
        self.negative_sums_alone += usize::from(rows.iter().all(negative));
    }
}

#[test]
fn tables_and_values_of_small_games_agree() {
    let mut rng = Rng::new(66);
    let mut met = Met::default();
    for round in 0..4_000 {
        let shape = match round % 4 {
            0 => Shape::crowded(&mut rng, 120),
            1 => Shape::random(&mut rng, 12, 3),
            _ => Shape::random(&mut rng, 80, 8),
        };
        let file = generated(&mut rng, &shape);
        met.count(&compare_game(&mut rng, &file));
    }
    assert_eq!(met.games, 4_000);
    assert!(met.several_leaves_on_a_pair > 600, "{met:?}");
    assert!(met.sums_that_cancel > 40, "{met:?}");
    assert!(met.chance > 1_000, "{met:?}");
    assert!(met.sets_after_larger_ones > 1_000, "{met:?}");
    assert!(met.a_player_without_sets > 400, "{met:?}");
    assert!(met.negative_sums_alone > 50, "{met:?}");
}

#[test]
fn tables_and_values_of_full_size_games_agree() {
    let mut rng = Rng::new(4_095);
    let mut files = vec![
        most_nodes().bytes().expect("a game that fits"),
        most_sets().bytes().expect("a game that fits"),
    ];
    for round in 0..4 {
        let mut wide = Shape::full(&mut rng);
        let mut deep = Shape::deep(&mut rng);
        let mut many_sets = Shape::crowded(&mut rng, 4_095);
        (deep.nodes, many_sets.nodes) = (4_095, 4_095);
        many_sets.merge_percent = 25 * round;
        wide.merge_percent = 100 - 25 * round;
        for shape in [wide, deep, many_sets] {
            files.push(generated(&mut rng, &shape));
        }
    }
    for file in files {
        compare_game(&mut rng, &file);
    }
}

/// D0 = D1 = D2 = 4,095 with the largest and the smallest payoffs: the widest sums.
#[test]
fn the_widest_sums_agree() {
    let mut rng = Rng::new(32_768);
    for round in 0..120 {
        let mut shape = match round % 8 {
            0 => Shape::full(&mut rng),
            1 => Shape::deep(&mut rng),
            _ => Shape::random(&mut rng, 200, 8),
        };
        shape.root_weight = 4_095;
        shape.payoffs = match round % 3 {
            0 => Payoffs::Extreme,
            1 => Payoffs::Constant(-32_768),
            _ => Payoffs::Constant(32_767),
        };
        let file = generated(&mut rng, &shape);
        let game = compare_game(&mut rng, &file);
        if let Payoffs::Constant(payoff) = shape.payoffs {
            let plan = even_plan(&game, [4_095, 4_095])
                .bytes()
                .expect("a plan that fits");
            let mut out = UNTOUCHED;
            assert_eq!(values(&file, &plan, &mut out), Ok(()));
            assert_eq!(out.values, [payoff * 4_095i64.pow(3); 2]);
            assert_eq!(out.bests, [payoff * 4_095i64.pow(2); 2]);
        }
    }
}

/// Chance leads to leaves whose sums are -1, 0 and 1 before and after each other leaf.
fn around_zero(payoffs: [i64; 4]) -> GameTables {
    let mut tables = GameTables::new(7);
    let set = tables.add_set(Player::One, 2);
    let root = tables.add_chance(tables.root(), 2);
    let first = tables.add_decision(Place::new(root, 0, 3), set);
    let second = tables.add_decision(Place::new(root, 1, 4), set);
    for (at, payoff) in payoffs.into_iter().enumerate() {
        let (parent, weight) = [(first, 3), (second, 4)][at % 2];
        let place = Place::new(parent, at as u64 / 2, weight);
        tables.add_leaf(place, [payoff, -payoff]);
    }
    tables
}

#[test]
fn sums_and_worths_around_zero_agree() {
    let mut rng = Rng::new(7);
    let near: Vec<[i64; 2]> = [-1, 0, 1]
        .iter()
        .flat_map(|wanted| [[4 + wanted, -3 - wanted], [-4 - wanted, 3 + wanted]])
        .chain([[1, -1], [0, 0], [-1, 1], [4, -3], [-5, 4], [3, -2]])
        .collect();
    for first in &near {
        for second in &near {
            let payoffs = [first[0], first[1], second[0], second[1]];
            let file = around_zero(payoffs).bytes().expect("a game that fits");
            compare_game(&mut rng, &file);
        }
    }
}

#[test]
fn named_games_agree() {
    let mut rng = Rng::new(3);
    let games = [
        study_game(),
        one_leaf([-1, 1]),
        one_leaf([-32_768, 32_767]),
        own_chain(255),
        wide_decision(64),
        wide_decision(1),
        wide_chance(64),
        kuhn(),
        leduc(),
    ];
    for tables in games {
        let file = tables.bytes().expect("a game that fits");
        compare_game(&mut rng, &file);
    }
    let file = kuhn().bytes().expect("a game that fits");
    let plan = kuhn_equilibrium(4, 1).bytes().expect("a plan that fits");
    assert_eq!(compare_files(&file, &plan), 0);
}

/// The table and the values that document 01 gives.
#[test]
fn the_study_game_has_document_01s_numbers() {
    let file = study_game().bytes().expect("a game that fits");
    let mut table = patterned([5; 4]);
    assert_eq!(payoff_table(&file, &mut table), Ok(()));
    let wanted = TableBuffers {
        sequences: [vec![2, 3, 3, 4, 4], vec![0, 1, 2, 1, 2]],
        sums: [vec![3, 2, 5, 0, 6], vec![3, 2, 6, 3, 1]],
        rows: 5,
    };
    assert_eq!(table, wanted);
    let given = |plan: PlanWeights| {
        let plan = plan.bytes().expect("a plan that fits");
        let mut out = UNTOUCHED;
        assert_eq!(values(&file, &plan, &mut out), Ok(()));
        (out.values, out.bests, out.weights)
    };
    assert_eq!(given(plan_m()), ([36, 24], [12, 8], [1, 3, 3]));
    assert_eq!(given(plan_q()), ([3, 3], [3, 3], [1, 1, 1]));
    assert_eq!(given(plan_f()), ([6, 6], [7, 3], [1, 1, 2]));
    assert_eq!(given(plan_r_against_thirds()), ([9, 9], [9, 3], [1, 1, 3]));
}

/// How often each refusal was met, 0 where there was none.
type Refusals = [usize; 17];

/// Every way to damage a plan on purpose, and some at random.
fn compare_damaged_plans(rng: &mut Rng, file: &[u8], game: &Game, met: &mut Refusals) {
    let [bytes, ..] = plans_of(rng, game);
    let plan = check_plan(game, &bytes).expect("a plan that fits");
    let mut damaged = [
        wrong_lengths(&plan),
        wrong_headers(&plan),
        misfits(rng, &plan),
    ]
    .concat();
    damaged.extend((14..=16).filter_map(|refusal| aim_at_plan(rng, &plan, refusal)));
    damaged.extend((0..3).map(|_| random_damage(rng, &bytes)));
    for damaged in damaged {
        met[compare_values(file, Ok(game), &damaged) as usize] += 1;
    }
}

#[test]
fn refused_files_get_their_number_and_touch_nothing() {
    let mut rng = Rng::new(16);
    let mut met = Refusals::default();
    for _ in 0..150 {
        let shape = Shape::random(&mut rng, 100, 10);
        let file = generated(&mut rng, &shape);
        let game = check_game(&file).expect("accepted");
        compare_damaged_plans(&mut rng, &file, &game, &mut met);
        let [plan, ..] = plans_of(&mut rng, &game);
        for refusal in 1..=13 {
            if let Some(damaged) = aim_at_game(&mut rng, &game, refusal) {
                met[compare_files(&damaged, &plan) as usize] += 1;
                met[compare_files(&damaged, &plan[..3]) as usize] += 1;
            }
        }
        for _ in 0..6 {
            let damaged = random_damage(&mut rng, &file);
            met[compare_files(&damaged, &plan) as usize] += 1;
        }
    }
    assert!(met[1..].iter().all(|&count| count > 40), "{met:?}");
}

#[test]
fn arbitrary_bytes_get_their_number() {
    let mut rng = Rng::new(19);
    let mut bytes = |length: usize| -> Vec<u8> { (0..length).map(|_| rng.word() as u8).collect() };
    let study = study_game().bytes().expect("a game that fits");
    for length in [0, 1, 4, 5, 13, 80, 36_860, 1 << 20] {
        for _ in 0..20 {
            let plan = bytes(length);
            assert_ne!(compare_files(&bytes(length), &plan), 0);
            assert_ne!(compare_files(&study, &plan), 0);
        }
    }
}
