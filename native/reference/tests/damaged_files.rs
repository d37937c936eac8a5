//! Damaged files: aimed ones get their refusal, and any other is answered.

use generator::aim::{aim_at_game, aim_at_plan};
use generator::damage::random_damage;
use generator::games::random_game;
use generator::plans::random_plan;
use generator::rng::Rng;
use generator::shape::Shape;
use reference::game::check_game;
use reference::plan::check_plan;
use reference::report::report;
use reference::writer::{fields_of, write_game};

/// A file that is accepted must be what its fields are written as.
fn check_answer(file: &[u8]) -> u8 {
    match check_game(file) {
        Ok(game) => {
            let mut again = vec![0; file.len()];
            let length = write_game(game.root_weight(), &fields_of(&game), &mut again);
            assert_eq!(length, Ok(file.len()));
            assert_eq!(again, file);
            0
        }
        Err(refusal) => {
            assert!((1..=13).contains(&refusal));
            refusal
        }
    }
}

/// The report of any two files is the first refusal of the game, then of the
/// plan, or begins with a value.
fn check_report(game_file: &[u8], plan_file: &[u8]) {
    let text = report(game_file, plan_file);
    match refusal_of(game_file, plan_file) {
        Some(refusal) => assert_eq!(text, format!("refusal {refusal}\n")),
        None => assert!(text.starts_with("value 1 "), "{text}"),
    }
}

fn refusal_of(game_file: &[u8], plan_file: &[u8]) -> Option<u8> {
    match check_game(game_file) {
        Ok(game) => check_plan(&game, plan_file).err(),
        Err(refusal) => Some(refusal),
    }
}

#[test]
fn aimed_game_files_get_their_refusal() {
    let mut rng = Rng::new(91);
    let mut met = [0; 14];
    for round in 0..1_000 {
        let shape = match round % 50 {
            0 => Shape::full(&mut rng),
            1 => Shape::deep(&mut rng),
            _ => Shape::random(&mut rng, 90, 64),
        };
        let file = random_game(&mut rng, &shape).bytes().unwrap();
        let game = check_game(&file).unwrap();
        for refusal in 1..=13 {
            if let Some(damaged) = aim_at_game(&mut rng, &game, refusal) {
                assert_eq!(check_game(&damaged).err(), Some(refusal));
                met[refusal as usize] += 1;
            }
        }
    }
    assert!(met[1..].iter().all(|&count| count > 100), "{met:?}");
}

#[test]
fn aimed_plan_files_get_their_refusal() {
    let mut rng = Rng::new(92);
    let mut met = [0; 17];
    for _ in 0..1_000 {
        let shape = Shape::random(&mut rng, 90, 8);
        let file = random_game(&mut rng, &shape).bytes().unwrap();
        let game = check_game(&file).unwrap();
        let bytes = random_plan(&mut rng, &game, [30, 77]).bytes().unwrap();
        let plan = check_plan(&game, &bytes).unwrap();
        for refusal in 14..=16 {
            if let Some(damaged) = aim_at_plan(&mut rng, &plan, refusal) {
                assert_eq!(check_plan(&game, &damaged).err(), Some(refusal));
                assert_eq!(report(&file, &damaged), format!("refusal {refusal}\n"));
                met[refusal as usize] += 1;
            }
        }
    }
    assert!(met[14..].iter().all(|&count| count > 500), "{met:?}");
}

#[test]
fn files_damaged_at_random_are_answered() {
    let mut rng = Rng::new(93);
    let mut met = [0; 14];
    for _ in 0..3_000 {
        let shape = Shape::random(&mut rng, 40, 5);
        let file = random_game(&mut rng, &shape).bytes().unwrap();
        for _ in 0..10 {
            let damaged = random_damage(&mut rng, &file);
            met[check_answer(&damaged) as usize] += 1;
            check_report(&damaged, &random_damage(&mut rng, &file));
        }
    }
    for (answer, &count) in met.iter().enumerate() {
        assert!(count > 0 || answer == 11, "{met:?}");
    }
}

#[test]
fn random_bytes_are_answered() {
    let mut rng = Rng::new(94);
    for _ in 0..20_000 {
        let length = rng.below(60);
        let mut file: Vec<u8> = (0..length).map(|_| rng.word() as u8).collect();
        check_answer(&file);
        if length > 5 {
            file[..5].copy_from_slice(&[0x10, 0, 0, 0, 1]);
            file[1] = ((length - 5) / 8) as u8;
            file[3] = (((length - 5) % 8) as u8) << 4;
            check_answer(&file);
        }
    }
}
