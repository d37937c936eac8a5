//! Drawn play sheets and plans: the smallest D by the definition, the ways there and back, and
//! the refusals that sheets are made for.

use generator::games::random_game;
use generator::named::{backward, study_game};
use generator::plans::{random_multiple_plan, random_plan, random_pure_plan};
use generator::poker::{kuhn, leduc};
use generator::refused_sheets::{beyond_the_limit, without_odds, wrong_fillings, wrong_lengths};
use generator::rng::Rng;
use generator::shape::{random_count, Shape};
use generator::sheets::{random_sheet, sheet_of, sheets_at_the_limit};
use generator::tables::{GameTables, PlanWeights, SheetOdds};
use reference::game::{check_game, Game, Move, Player};
use reference::limits::LARGEST;
use reference::plan::{check_plan, Plan};
use reference::sheet::{check_sheet, is_over_smallest, sheet_bytes, Sheet, WIDTH};
use reference::Refusal;

fn game_of(tables: &GameTables) -> Game {
    check_game(&tables.bytes().unwrap()).unwrap()
}

/// Small games, crowded ones and some that are long or of full size.
fn games(rng: &mut Rng, count: usize) -> Vec<Game> {
    let mut games: Vec<Game> = [study_game(), backward(), kuhn(), leduc()]
        .iter()
        .map(game_of)
        .collect();
    for round in 0..count {
        let shape = match round % 50 {
            0 => Shape::full(rng),
            1 => Shape::deep(rng),
            2..=20 => Shape::crowded(rng, 90),
            _ => Shape::random(rng, 60, 8),
        };
        games.push(game_of(&random_game(rng, &shape)));
    }
    games
}

/// The own sequences of a player that are not empty.
fn sequences(game: &Game, player: Player) -> Vec<Vec<Move>> {
    let mut sequences = Vec::new();
    for set in game.sets_of(player) {
        let leading = game.leading_sequence(set).unwrap();
        for number in 0..game.sets()[set].moves {
            sequences.push([&leading[..], &[Move { set, number }]].concat());
        }
    }
    sequences
}

/// The probability of a sequence: the odds of its moves multiplied, over the sums of the odds at
/// its sets multiplied; 0 over 1 where a zero is among the odds. Nothing where a product is too
/// large to be worked out here.
fn probability(odds: &[Vec<u64>], sequence: &[Move]) -> Option<(u128, u128)> {
    let odds_of = |own: &Move| u128::from(odds[own.set][own.number]);
    if sequence.iter().any(|own| odds_of(own) == 0) {
        return Some((0, 1));
    }
    sequence
        .iter()
        .try_fold((1u128, 1u128), |(over, under), own| {
            let sum: u64 = odds[own.set].iter().sum();
            let over = over.checked_mul(odds_of(own))?;
            Some((over, under.checked_mul(sum.into())?))
        })
}

/// The smallest D up to the limit for which D × each probability is whole, with these weights.
fn by_definition(fractions: &[(u128, u128)], limit: u64) -> Result<Vec<u64>, Refusal> {
    let whole = |d: u64| {
        let each = |&(over, under): &(u128, u128)| {
            let product = u128::from(d) * over;
            (product % under == 0).then_some((product / under) as u64)
        };
        let weights: Option<Vec<u64>> = fractions.iter().map(each).collect();
        weights.map(|weights| [&[d], &weights[..]].concat())
    };
    (1..=limit).find_map(whole).ok_or(21)
}

/// Compares a sheet with the definition; whether its D is found, or nothing where it is not
/// worked out.
fn compare(game: &Game, odds: &[Vec<u64>], width: usize, limit: u64) -> Option<bool> {
    let file = sheet_bytes(game, odds, width);
    let sheet = check_sheet(game, &file, width).ok()?;
    assert_eq!(sheet.odds(), odds);
    let mut served = true;
    for player in Player::BOTH {
        let sequences = sequences(game, player);
        let fractions = sequences
            .iter()
            .map(|sequence| probability(odds, sequence).filter(|&(over, _)| over < 1 << 111));
        let fractions: Option<Vec<_>> = fractions.collect();
        let wanted = by_definition(&fractions?, limit);
        served &= wanted.is_ok();
        assert_eq!(sheet.smallest_weights(player, limit), wanted);
    }
    Some(served)
}

#[test]
fn d_is_the_smallest_by_the_definition() {
    let mut rng = Rng::new(201);
    let mut met = [0; 2];
    for _ in 0..3_000 {
        let shape = match rng.below(3) {
            0 => Shape::crowded(&mut rng, 50),
            _ => Shape::random(&mut rng, 40, 5),
        };
        let game = game_of(&random_game(&mut rng, &shape));
        let denominators = [random_count(&mut rng), random_count(&mut rng)];
        let plan = random_plan(&mut rng, &game, denominators).bytes().unwrap();
        let plan = check_plan(&game, &plan).unwrap();
        let drawn = [
            sheet_of(&mut rng, &plan),
            random_sheet(&mut rng, &game),
            random_sheet(&mut rng, &game),
        ];
        for sheet in drawn {
            if let Some(served) = compare(&game, &sheet.by_set, WIDTH, LARGEST) {
                met[usize::from(served)] += 1;
            }
        }
    }
    assert!(met[0] > 300 && met[1] > 4_000, "{met:?}");
}

/// The same with 16 bits a move and D up to 65,535.
#[test]
fn d_is_the_smallest_with_wider_odds() {
    let mut rng = Rng::new(202);
    let mut met = [0; 2];
    for _ in 0..250 {
        let shape = Shape::random(&mut rng, 30, 4);
        let game = game_of(&random_game(&mut rng, &shape));
        let mut sheet = random_sheet(&mut rng, &game);
        for odds in sheet.by_set.iter_mut().flatten() {
            *odds *= rng.between(1, 16);
        }
        if let Some(served) = compare(&game, &sheet.by_set, 16, 65_535) {
            met[usize::from(served)] += 1;
        }
    }
    assert!(met.iter().all(|&count| count > 20), "{met:?}");
}

/// What a sheet must be after a plan was made of it: lowest terms where its player arrives, zeros
/// elsewhere.
fn in_lowest_terms(sheet: &Sheet) -> Vec<Vec<u64>> {
    let sets = sheet.odds().iter().enumerate();
    let at_set = |(set, odds): (usize, &Vec<u64>)| {
        if !sheet.arrives_at(set) {
            return vec![0; odds.len()];
        }
        let common = |divisor: &u64| odds.iter().all(|odds| odds % divisor == 0);
        let divisor = (1..=LARGEST).rev().find(common).unwrap();
        odds.iter().map(|odds| odds / divisor).collect()
    };
    sets.map(at_set).collect()
}

#[test]
fn sheet_to_plan_to_sheet_gives_lowest_terms() {
    let mut rng = Rng::new(203);
    let mut met = [0; 22];
    for game in games(&mut rng, 800) {
        for _ in 0..6 {
            let file = random_sheet(&mut rng, &game).bytes(&game).unwrap();
            let made = check_sheet(&game, &file, WIDTH);
            let made = made.and_then(|sheet| Ok((sheet.plan_file(LARGEST)?, sheet)));
            let (plan, sheet) = match made {
                Ok(made) => made,
                Err(refusal) => {
                    met[usize::from(refusal)] += 1;
                    continue;
                }
            };
            met[0] += 1;
            let plan = check_plan(&game, &plan).unwrap();
            assert!(Player::BOTH.map(|player| is_over_smallest(&plan, player)) == [true; 2]);
            assert_eq!(Sheet::of_plan(&plan).odds(), in_lowest_terms(&sheet));
        }
    }
    assert!(met[0] > 1_500 && met[20] > 200 && met[21] > 200, "{met:?}");
}

/// D and all weights of the player have no common divisor but 1, by trying each.
fn no_common_divisor(plan: &Plan, player: Player) -> bool {
    let weights = plan.weights(player);
    (2..=weights[0]).all(|divisor| weights.iter().any(|weight| weight % divisor > 0))
}

/// Over every smaller d one of the player's weights is not whole.
fn over_no_smaller(plan: &Plan, player: Player) -> bool {
    let weights = plan.weights(player);
    let broken = |d: u64| {
        weights
            .iter()
            .any(|weight| !(weight * d).is_multiple_of(weights[0]))
    };
    (1..weights[0]).all(broken)
}

/// A plan's probabilities are those of another.
fn same_probabilities(one: &Plan, other: &Plan, player: Player) -> bool {
    let (one, other) = (one.weights(player), other.weights(player));
    let mut pairs = one.iter().zip(other);
    one.len() == other.len() && pairs.all(|(a, b)| a * other[0] == b * one[0])
}

fn plans_of(rng: &mut Rng, game: &Game) -> Vec<PlanWeights> {
    let denominators = [random_count(rng), random_count(rng)];
    let factors = [random_count(rng), random_count(rng)];
    vec![
        random_plan(rng, game, denominators),
        random_multiple_plan(rng, game),
        random_pure_plan(rng, game).scaled(factors),
    ]
}

#[test]
fn plan_to_sheet_to_plan_gives_the_smallest_d() {
    let mut rng = Rng::new(204);
    // By how many players are over the smallest D.
    let mut met = [0; 3];
    for game in games(&mut rng, 800) {
        for pair in plans_of(&mut rng, &game) {
            let file = pair.bytes().unwrap();
            let plan = check_plan(&game, &file).unwrap();
            let sheet = Sheet::of_plan(&plan).bytes(WIDTH);
            let back = check_sheet(&game, &sheet, WIDTH).unwrap();
            let back_file = back.plan_file(LARGEST).unwrap();
            let back = check_plan(&game, &back_file).unwrap();
            let over = Player::BOTH.map(|player| {
                assert!(same_probabilities(&plan, &back, player));
                assert!(no_common_divisor(&back, player));
                let over = no_common_divisor(&plan, player);
                assert_eq!(is_over_smallest(&plan, player), over);
                assert_eq!(over_no_smaller(&plan, player), over);
                let same = plan.weights(player) == back.weights(player);
                assert_eq!(same, over);
                over
            });
            assert_eq!(back_file == file, over == [true; 2]);
            met[over.iter().filter(|&&over| over).count()] += 1;
        }
    }
    assert!(met.iter().all(|&count| count > 150), "{met:?}");
}

/// The first refusal of 19 to 21 that applies to a sheet, or 0.
fn refusal(game: &Game, file: &[u8]) -> Refusal {
    let made = check_sheet(game, file, WIDTH).and_then(|sheet| sheet.plan_file(LARGEST));
    made.err().unwrap_or(0)
}

fn refusal_of(game: &Game, sheet: &SheetOdds) -> Refusal {
    refusal(game, &sheet.bytes(game).unwrap())
}

#[test]
fn each_sheet_gets_the_refusal_that_it_is_made_for() {
    let mut rng = Rng::new(205);
    let mut met = [0; 22];
    for game in games(&mut rng, 400) {
        let denominators = [random_count(&mut rng), random_count(&mut rng)];
        let plan = random_plan(&mut rng, &game, denominators).bytes().unwrap();
        let plan = check_plan(&game, &plan).unwrap();
        let sheet = sheet_of(&mut rng, &plan);
        let file = sheet.bytes(&game).unwrap();
        assert_eq!(refusal(&game, &file), 0);
        met[0] += 1;
        let wrong = [wrong_lengths(&game, &file), wrong_fillings(&game, &file)];
        for damaged in wrong.concat() {
            assert_eq!(refusal(&game, &damaged), 19);
            met[19] += 1;
        }
        for player in Player::BOTH {
            let beyond = beyond_the_limit(&mut rng, &game, &sheet, player);
            for beyond in beyond.iter() {
                assert_eq!(refusal_of(&game, beyond), 21);
                met[21] += 1;
            }
            // 20 of one player, and 21 of either.
            for sheet in [Some(&sheet), beyond.as_ref()].into_iter().flatten() {
                for player in Player::BOTH {
                    let Some(without) = without_odds(&mut rng, &game, sheet, player) else {
                        continue;
                    };
                    assert_eq!(refusal_of(&game, &without), 20);
                    met[20] += 1;
                }
            }
        }
        for (sheet, wanted) in sheets_at_the_limit(&mut rng, &game) {
            assert_eq!(refusal_of(&game, &sheet), wanted);
            met[usize::from(wanted)] += 1;
        }
    }
    for refusal in [0, 19, 20, 21] {
        assert!(met[refusal] > 500, "{met:?}");
    }
}

/// The sheets of the limit have D = 4,095 where they are taken.
#[test]
fn d_of_4095_is_met_in_each_way() {
    let mut rng = Rng::new(206);
    let mut met = 0;
    for game in games(&mut rng, 60) {
        for (sheet, wanted) in sheets_at_the_limit(&mut rng, &game) {
            if wanted == 0 {
                let file = sheet.bytes(&game).unwrap();
                let sheet = check_sheet(&game, &file, WIDTH).unwrap();
                let found = Player::BOTH.map(|player| sheet.smallest_weights(player, LARGEST));
                let found = found.map(|weights| weights.unwrap()[0]);
                assert!(found.contains(&LARGEST) && found.contains(&1), "{found:?}");
                met += 1;
            }
        }
    }
    assert!(met > 60, "{met}");
}

/// The drawn games have sets after sets of larger number, with a choice in both.
#[test]
fn drawn_games_have_sets_after_later_ones() {
    let mut rng = Rng::new(207);
    let follows_a_later = |game: &Game| {
        let sets = 0..game.sets().len();
        sets.filter(|&set| {
            let leading = game.leading_sequence(set).unwrap();
            leading.last().is_some_and(|own| own.set > set)
        })
        .count()
    };
    let games = games(&mut rng, 200);
    let many = games.iter().filter(|game| follows_a_later(game) > 2);
    assert!(many.count() > 60);
    assert_eq!(follows_a_later(&game_of(&backward())), 1);
}
