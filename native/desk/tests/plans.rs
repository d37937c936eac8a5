//! The proved library against the independent implementation, on plan files.

use desk::{expected, plain, plan_fields, PlanBuffers, Refusal};
use generator::aim::{aim_at_game, aim_at_plan};
use generator::damage::random_damage;
use generator::edit::{put_bits, D1, D2, EDITION, PLAN_ZEROS};
use generator::games::random_game;
use generator::large::{most_nodes, most_sets};
use generator::named::{one_leaf, own_chain, plan_m, study_game, wide_decision};
use generator::plans::{even_plan, random_plan, random_pure_plan};
use generator::poker::{kuhn, leduc};
use generator::refused_plans::{misfits, wrong_headers, wrong_lengths};
use generator::rng::Rng;
use generator::shape::{random_count, Shape};
use reference::game::{check_game, Game};
use reference::plan::check_plan;

/// D1, D2 and a buffer of this length, each with a pattern of its own.
fn patterned(length: usize) -> PlanBuffers {
    PlanBuffers {
        d1: 123_456,
        d2: 654_321,
        weights: (0..length as u64).map(|i| 7_919_000 + i).collect(),
    }
}

/// The buffers after a call that gives these fields: what lies past the weights stays.
fn filled(given: &PlanBuffers, before: &PlanBuffers) -> PlanBuffers {
    let past = before.weights[given.weights.len()..].iter();
    PlanBuffers {
        weights: given.weights.iter().chain(past).copied().collect(),
        ..given.clone()
    }
}

/// A call with a buffer of this length must give this answer, and no more.
fn compare_room(game: &[u8], plan: &[u8], wanted: &Result<PlanBuffers, Refusal>, room: usize) {
    let before = patterned(room);
    let (answer, after) = match wanted {
        Ok(given) if given.weights.len() <= room => (Ok(()), filled(given, &before)),
        Ok(_) => (Err(18), before.clone()),
        Err(refusal) => (Err(*refusal), before.clone()),
    };
    let mut buffers = before.clone();
    assert_eq!(plan_fields(game, plan, &mut buffers), answer, "room {room}");
    assert_eq!(buffers, after, "room {room}");
}

/// The same file through plain Rust.
fn compare_plain(game: &[u8], plan: &[u8], wanted: &Result<PlanBuffers, Refusal>) {
    type Plain = fn(&[u8], &[u8], &mut PlanBuffers) -> Result<(), Refusal>;
    let readers: [Plain; 2] = [
        plain::plan::plan_fields::<plain::BitLoop>,
        plain::plan::plan_fields::<plain::Word>,
    ];
    let room = wanted.as_ref().map_or(4, |given| given.weights.len());
    for reader in readers {
        let mut buffers = patterned(room);
        let answer = reader(game, plan, &mut buffers);
        assert_eq!(&answer.map(|()| buffers), wanted);
    }
}

/// A plan with a game through the library, in buffers exactly long enough, longer and
/// too short; the refusal, or 0.
fn compare(file: &[u8], game: Result<&Game, Refusal>, plan: &[u8]) -> Refusal {
    let wanted =
        game.and_then(|game| check_plan(game, plan).map(|plan| expected::plan_fields(&plan)));
    compare_plain(file, plan, &wanted);
    match &wanted {
        Ok(given) => {
            let moves = given.weights.len();
            compare_room(file, plan, &wanted, moves);
            compare_room(file, plan, &wanted, moves + 3);
            if moves > 0 {
                compare_room(file, plan, &wanted, moves - 1);
                compare_room(file, plan, &wanted, 0);
            }
            0
        }
        Err(refusal) => {
            compare_room(file, plan, &wanted, 5_000);
            compare_room(file, plan, &wanted, 0);
            *refusal
        }
    }
}

/// The same with the game still to be read.
fn compare_files(file: &[u8], plan: &[u8]) -> Refusal {
    let game = check_game(file);
    compare(file, game.as_ref().map_err(|&refusal| refusal), plan)
}

/// How often each refusal was met, 0 where there was none.
type Met = [usize; 17];

/// Three plans for a game.
fn plans_of(rng: &mut Rng, game: &Game) -> [Vec<u8>; 3] {
    let denominators = [random_count(rng), random_count(rng)];
    let plans = [
        random_plan(rng, game, denominators),
        random_pure_plan(rng, game),
        even_plan(game, denominators),
    ];
    plans.map(|plan| plan.bytes().expect("a plan that fits"))
}

/// Every way to damage a plan on purpose, and some at random.
fn compare_damaged(rng: &mut Rng, file: &[u8], game: &Game, bytes: &[u8], met: &mut Met) {
    let plan = check_plan(game, bytes).expect("a plan that fits");
    let aimed = [
        (14, wrong_lengths(&plan)),
        (15, wrong_headers(&plan)),
        (16, misfits(rng, &plan)),
    ];
    for (refusal, plans) in aimed {
        for damaged in plans {
            assert_eq!(compare(file, Ok(game), &damaged), refusal);
            met[refusal as usize] += 1;
        }
    }
    for refusal in 14..=16 {
        if let Some(damaged) = aim_at_plan(rng, &plan, refusal) {
            met[compare(file, Ok(game), &damaged) as usize] += 1;
        }
    }
    for _ in 0..3 {
        let damaged = random_damage(rng, bytes);
        met[compare(file, Ok(game), &damaged) as usize] += 1;
    }
}

/// Games that get each of 1 to 13, with a plan that fits the game before its damage.
fn compare_damaged_games(rng: &mut Rng, game: &Game, plan: &[u8], met: &mut Met) {
    for refusal in 1..=13 {
        if let Some(damaged) = aim_at_game(rng, game, refusal) {
            met[compare_files(&damaged, plan) as usize] += 1;
        }
    }
}

fn generated(rng: &mut Rng, shape: &Shape) -> Vec<u8> {
    let tables = random_game(rng, shape);
    tables.bytes().expect("a game that fits")
}

#[test]
fn plans_of_generated_games_agree() {
    let mut rng = Rng::new(14);
    let mut met = Met::default();
    for round in 0..170 {
        let shape = match round % 3 {
            0 => Shape::crowded(&mut rng, 200),
            _ => Shape::random(&mut rng, 120, 12),
        };
        let file = generated(&mut rng, &shape);
        let game = check_game(&file).expect("accepted");
        for plan in plans_of(&mut rng, &game) {
            assert_eq!(compare(&file, Ok(&game), &plan), 0);
            met[0] += 1;
            compare_damaged(&mut rng, &file, &game, &plan, &mut met);
        }
        let [plan, ..] = plans_of(&mut rng, &game);
        compare_damaged_games(&mut rng, &game, &plan, &mut met);
    }
    assert!(met.iter().all(|&count| count > 50), "{met:?}");
    assert!(met.iter().sum::<usize>() > 14_000, "{met:?}");
}

#[test]
fn plans_of_full_size_games_agree() {
    let mut rng = Rng::new(4_094);
    let mut met = Met::default();
    let mut files = vec![
        most_nodes().bytes().expect("a game that fits"),
        most_sets().bytes().expect("a game that fits"),
    ];
    for _ in 0..3 {
        let (full, deep) = (Shape::full(&mut rng), Shape::deep(&mut rng));
        files.extend([full, deep].map(|shape| generated(&mut rng, &shape)));
    }
    for file in files {
        let game = check_game(&file).expect("accepted");
        let plans = plans_of(&mut rng, &game);
        for plan in &plans {
            assert_eq!(compare(&file, Ok(&game), plan), 0);
        }
        let plan = check_plan(&game, &plans[1]).expect("a plan that fits");
        let mut damaged = misfits(&mut rng, &plan);
        damaged.extend(
            [wrong_lengths(&plan), wrong_headers(&plan)].map(|mut files| {
                let place = rng.below(files.len());
                files.swap_remove(place)
            }),
        );
        damaged.extend((14..=16).filter_map(|refusal| aim_at_plan(&mut rng, &plan, refusal)));
        for damaged in damaged {
            met[compare(&file, Ok(&game), &damaged) as usize] += 1;
        }
    }
    assert!(met[14..].iter().all(|&count| count > 8), "{met:?}");
}

#[test]
fn plans_of_named_games_agree() {
    let mut rng = Rng::new(3);
    let mut met = Met::default();
    let games = [
        study_game(),
        one_leaf([-1, 1]),
        own_chain(255),
        wide_decision(64),
        wide_decision(63),
        wide_decision(1),
        kuhn(),
        leduc(),
    ];
    for tables in games {
        let file = tables.bytes().expect("a game that fits");
        let game = check_game(&file).expect("accepted");
        let plan = &plans_of(&mut rng, &game)[1];
        assert_eq!(compare(&file, Ok(&game), plan), 0);
        compare_damaged(&mut rng, &file, &game, plan, &mut met);
    }
}

#[test]
fn of_two_broken_rules_the_lower_number_is_given() {
    let file = study_game().bytes().expect("a game that fits");
    let misfit = |change: fn(&mut Vec<u8>)| {
        let mut plan = plan_m().bytes().expect("a plan that fits");
        put_bits(&mut plan, D2, 4);
        change(&mut plan);
        compare_files(&file, &plan)
    };
    assert_eq!(misfit(|_| ()), 16);
    assert_eq!(misfit(|plan| put_bits(plan, D1, 0)), 15);
    assert_eq!(misfit(|plan| put_bits(plan, EDITION, 2)), 15);
    assert_eq!(misfit(|plan| put_bits(plan, PLAN_ZEROS, 1)), 15);
    let shorter = |plan: &mut Vec<u8>| {
        put_bits(plan, EDITION, 2);
        plan.pop();
    };
    assert_eq!(misfit(shorter), 14);
    let mut plan = plan_m().bytes().expect("a plan that fits");
    plan.push(0);
    assert_eq!(compare_files(&file[..79], &plan), 4);
}

#[test]
fn plans_of_other_games_agree() {
    let mut rng = Rng::new(8);
    let files: Vec<Vec<u8>> = (0..40)
        .map(|_| {
            let shape = Shape::random(&mut rng, 12, 3);
            generated(&mut rng, &shape)
        })
        .collect();
    for plan_game in &files {
        let game = check_game(plan_game).expect("accepted");
        let [plan, ..] = plans_of(&mut rng, &game);
        for file in &files {
            compare_files(file, &plan);
        }
    }
}

#[test]
fn arbitrary_bytes_get_their_number() {
    let mut rng = Rng::new(18);
    let mut met = Met::default();
    let mut bytes = |length: usize| -> Vec<u8> { (0..length).map(|_| rng.word() as u8).collect() };
    let study = study_game().bytes().expect("a game that fits");
    for length in [0, 1, 3, 4, 5, 12, 13, 14, 6_146, 1 << 20] {
        for _ in 0..20 {
            let mut plan = bytes(length);
            compare_files(&bytes(length), &plan);
            met[compare_files(&study, &plan) as usize] += 1;
            if length >= 4 {
                put_bits(&mut plan, EDITION, 1);
                put_bits(&mut plan, PLAN_ZEROS, 0);
                met[compare_files(&study, &plan) as usize] += 1;
            }
        }
    }
    assert!(met[14] > 100 && met[15] > 10 && met[16] > 10, "{met:?}");
}
