//! Games with long paths of chance or of one player, combs and fans, small and of full size:
//! the library and plain Rust against the independent implementation.

use desk::form::{TableBuffers, Values};
use desk::report::report;
use desk::variants::{self, Variant, NAMES};
use desk::verdict::VerdictBuffers;
use desk::{expected, Output};
use generator::near::pairs_near;
use generator::plans::random_plan;
use generator::rng::Rng;
use generator::slow::{slow_game, slow_games_of_full_size, Slow};
use generator::tables::{GameTables, PlanWeights};
use reference::game::{check_game, Game};
use reference::plan::{check_plan, Plan};
use reference::verdict::verdict;

/// How many small games are tried.
const SMALL: usize = 240;

/// How many drawn games of full size are tried.
const LARGE: usize = 4;

/// The counts and the table of a game as a variant gives them.
fn compare_game(variant: &mut dyn Variant, file: &[u8], game: &Game) {
    assert_eq!(variant.check_game(file), Ok(expected::counts(game)));
    let table = expected::payoff_table(game);
    let mut out = TableBuffers::with_room(table.rows as usize);
    assert_eq!(variant.payoff_table(file, &mut out), Ok(()));
    assert!(out == table);
}

/// The values and the verdict of a pair as a variant gives them.
fn compare_pair(variant: &mut dyn Variant, file: &[u8], bytes: &[u8], plan: &Plan) {
    let mut values = Values::default();
    assert_eq!(variant.values(file, bytes, &mut values), Ok(()));
    assert_eq!(values, expected::values(plan));
    let judged = expected::verdict(plan, &verdict(plan));
    let mut out = VerdictBuffers::with_room(judged.moves.len());
    assert_eq!(variant.verdict(file, bytes, &mut out), Ok(()));
    assert!(out == judged);
}

fn compare_report(file: &[u8], bytes: &[u8]) {
    let text = expected::report(file, bytes).expect("a pair that fits");
    let mut out = Output::with_room(text.len());
    assert_eq!(report(file, bytes, &mut out), Ok(()));
    assert!(out.bytes == text && out.length == text.len() as u64);
}

/// A game with pairs through every call.
fn compare(tables: &GameTables, pairs: impl FnOnce(&Game) -> Vec<PlanWeights>) {
    let file = tables.bytes().expect("a game that fits");
    let game = check_game(&file).expect("accepted");
    let mut variants = variants::all();
    for (variant, name) in variants.iter_mut().zip(NAMES) {
        println!("{name}");
        compare_game(variant.as_mut(), &file, &game);
    }
    for pair in pairs(&game) {
        let bytes = pair.bytes().expect("a plan that fits");
        let plan = check_plan(&game, &bytes).expect("a plan that fits");
        for (variant, name) in variants.iter_mut().zip(NAMES) {
            println!("{name}");
            compare_pair(variant.as_mut(), &file, &bytes, &plan);
        }
        compare_report(&file, &bytes);
    }
}

#[test]
fn small_games_agree() {
    let mut rng = Rng::new(400);
    for round in 0..SMALL {
        let slow = Slow::random(&mut rng, 2 + round % 120);
        let tables = slow_game(&mut rng, &slow);
        compare(&tables, |game| pairs_near(&mut rng, game));
    }
}

/// One plan of 4,095 and 4,094 for a game.
fn one_plan(rng: &mut Rng, game: &Game) -> Vec<PlanWeights> {
    vec![random_plan(rng, game, [4_095, 4_094])]
}

#[test]
fn drawn_games_of_full_size_agree() {
    let mut rng = Rng::new(4_000);
    for _ in 0..LARGE {
        let slow = Slow::random(&mut rng, 4_095);
        let tables = slow_game(&mut rng, &slow);
        compare(&tables, |game| one_plan(&mut rng, game));
    }
}

#[test]
fn the_slowest_games_agree() {
    let mut rng = Rng::new(4_001);
    for (name, tables) in slow_games_of_full_size() {
        println!("{name}");
        compare(&tables, |game| one_plan(&mut rng, game));
    }
}
