//! Play sheets: the proved library and plain Rust against the independent implementation, and
//! the ways from a sheet to a plan and back through the library alone.

use desk::drawn::large_games;
use desk::sheet::{plan_from_sheet, sheet_from_plan};
use desk::variants::{self, Variant, COUNT, NAMES};
use desk::verdict::{verdict, VerdictBuffers};
use desk::{Output, Refusal};
use generator::aim::{aim_at_game, aim_at_plan};
use generator::damage::random_damage;
use generator::edit::{changed, plan_weight};
use generator::games::random_game;
use generator::large::most_nodes;
use generator::named::{
    backward, one_leaf, plan_f, plan_m, row_of_sets, set_below_itself, study_game,
};
use generator::plans::{even_plan, random_multiple_plan, random_plan, random_pure_plan};
use generator::poker::{kuhn, leduc};
use generator::refused_plans::{misfits, wrong_headers};
use generator::refused_sheets::{beyond_the_limit, without_odds, wrong_fillings, wrong_lengths};
use generator::rng::Rng;
use generator::shape::{random_count, Shape};
use generator::sheets::{pure_sheet, random_sheet, sheet_of, sheets_at_the_limit};
use generator::tables::{GameTables, PlanWeights, SheetOdds};
use reference::deliver;
use reference::game::{check_game, Game, Player};
use reference::limits::LARGEST;
use reference::plan::{check_plan, Plan};
use reference::sheet::{check_sheet, is_over_smallest, Sheet, WIDTH};
use std::fs;
use std::path::Path;

/// Longer than any plan or sheet.
const LONGEST: usize = 6_200;

/// A buffer of this length and a number, each with a pattern of its own.
fn patterned(length: usize) -> Output {
    Output {
        bytes: (0..length).map(|i| 0x5a ^ i as u8).collect(),
        length: 123_456_789,
    }
}

type Make<'a> = &'a dyn Fn(&mut dyn Variant, &mut Output) -> Result<(), Refusal>;

/// All implementations, with how often each refusal was met; 0 where there was none.
struct Trial {
    variants: [Box<dyn Variant>; COUNT],
    sheets: [usize; 22],
    plans: [usize; 22],
}

impl Trial {
    fn new() -> Trial {
        Trial {
            variants: variants::all(),
            sheets: [0; 22],
            plans: [0; 22],
        }
    }

    /// A call in a buffer of this length must give this file or refusal, and no more.
    fn compare_room(&mut self, make: Make, wanted: &Result<Vec<u8>, Refusal>, room: usize) {
        let mut after = patterned(room);
        let answer = wanted.clone().and_then(|file| {
            after.length = deliver(&file, &mut after.bytes)? as u64;
            Ok(())
        });
        for (variant, name) in self.variants.iter_mut().zip(NAMES) {
            let mut out = patterned(room);
            let given = make(variant.as_mut(), &mut out);
            assert_eq!(given, answer, "{name}, room {room}");
            assert!(out == after, "{name}, room {room}: {answer:?}");
        }
    }

    /// In buffers exactly long enough, longer, one short and empty; the refusal, or 0.
    fn compare(&mut self, make: Make, wanted: &Result<Vec<u8>, Refusal>) -> Refusal {
        match wanted {
            Ok(file) => {
                self.compare_room(make, wanted, file.len());
                self.compare_room(make, wanted, file.len() + 7);
                if !file.is_empty() {
                    self.compare_room(make, wanted, file.len() - 1);
                    self.compare_room(make, wanted, 0);
                }
                0
            }
            Err(refusal) => {
                self.compare_room(make, wanted, LONGEST);
                self.compare_room(make, wanted, 0);
                *refusal
            }
        }
    }

    /// A plan from a sheet of a game; the refusal, or 0.
    fn sheet(&mut self, file: &[u8], game: Result<&Game, Refusal>, sheet: &[u8]) -> Refusal {
        let wanted = game.and_then(|game| check_sheet(game, sheet, WIDTH)?.plan_file(LARGEST));
        let make =
            |variant: &mut dyn Variant, out: &mut Output| variant.plan_from_sheet(file, sheet, out);
        let refusal = self.compare(&make, &wanted);
        self.sheets[usize::from(refusal)] += 1;
        refusal
    }

    /// A sheet from a plan of a game; the refusal, or 0.
    fn plan(&mut self, file: &[u8], game: Result<&Game, Refusal>, plan: &[u8]) -> Refusal {
        let wanted = game.and_then(|game| check_plan(game, plan));
        let wanted = wanted.map(|plan| Sheet::of_plan(&plan).bytes(WIDTH));
        let make =
            |variant: &mut dyn Variant, out: &mut Output| variant.sheet_from_plan(file, plan, out);
        let refusal = self.compare(&make, &wanted);
        self.plans[usize::from(refusal)] += 1;
        refusal
    }

    /// Both calls with the game still to be read; their refusals, or 0.
    fn files(&mut self, file: &[u8], sheet: &[u8], plan: &[u8]) -> [Refusal; 2] {
        let game = check_game(file);
        let game = game.as_ref().map_err(|&refusal| refusal);
        [self.sheet(file, game, sheet), self.plan(file, game, plan)]
    }

    /// Sheets of a plan's probabilities and any, those at the limit, and those made for each
    /// refusal.
    fn sheets_of(&mut self, rng: &mut Rng, file: &[u8], plan: &Plan) {
        let game = plan.game();
        let bytes = |sheet: &SheetOdds| sheet.bytes(game).expect("odds of 12 bits");
        let taken = sheet_of(rng, plan);
        let taken_file = bytes(&taken);
        assert_eq!(self.sheet(file, Ok(game), &taken_file), 0);
        for _ in 0..3 {
            let any = bytes(&random_sheet(rng, game));
            self.sheet(file, Ok(game), &any);
        }
        for (sheet, refusal) in sheets_at_the_limit(rng, game) {
            assert_eq!(self.sheet(file, Ok(game), &bytes(&sheet)), refusal);
        }
        for wrong in wrong_fillings(game, &taken_file) {
            assert_eq!(self.sheet(file, Ok(game), &wrong), 19);
        }
        let lengths = wrong_lengths(game, &taken_file);
        for wrong in [rng.pick(&lengths), lengths.last()].into_iter().flatten() {
            assert_eq!(self.sheet(file, Ok(game), wrong), 19);
        }
        for player in Player::BOTH {
            let without = without_odds(rng, game, &taken, player);
            let beyond = beyond_the_limit(rng, game, &taken, player);
            let both = beyond.as_ref();
            let both = both.and_then(|sheet| without_odds(rng, game, sheet, player.other()));
            for (sheet, refusal) in [(without, 20), (both, 20), (beyond, 21)] {
                if let Some(sheet) = sheet {
                    assert_eq!(self.sheet(file, Ok(game), &bytes(&sheet)), refusal);
                }
            }
        }
        for _ in 0..2 {
            self.sheet(file, Ok(game), &random_damage(rng, &taken_file));
        }
    }

    /// A plan, and files made out of it for 14, 15 and 16.
    fn plans_of(&mut self, rng: &mut Rng, file: &[u8], plan: &Plan) {
        let game = plan.game();
        let bytes = PlanWeights::of(plan).bytes().expect("a plan that fits");
        assert_eq!(self.plan(file, Ok(game), &bytes), 0);
        let mut damaged: Vec<Vec<u8>> = (14..=16)
            .filter_map(|refusal| aim_at_plan(rng, plan, refusal))
            .collect();
        let headers = wrong_headers(plan);
        damaged.extend(rng.pick(&headers).cloned());
        let misfits = misfits(rng, plan);
        damaged.extend(rng.pick(&misfits).cloned());
        damaged.push(random_damage(rng, &bytes));
        for damaged in damaged {
            self.plan(file, Ok(game), &damaged);
        }
    }
}

/// Plans over any D, over a multiple of the smallest, pure ones times a number and even ones.
fn drawn_plans(rng: &mut Rng, game: &Game) -> [Vec<u8>; 4] {
    let [d1, d2, factor1, factor2] = [(); 4].map(|()| random_count(rng));
    let plans = [
        random_plan(rng, game, [d1, d2]),
        random_multiple_plan(rng, game),
        random_pure_plan(rng, game).scaled([factor1, factor2]),
        even_plan(game, [d2, d1]),
    ];
    plans.map(|plan| plan.bytes().expect("a plan that fits"))
}

fn bytes_of(tables: &GameTables) -> Vec<u8> {
    tables.bytes().expect("a game that fits")
}

fn shape_of(rng: &mut Rng, round: usize) -> Shape {
    match round % 3 {
        0 => Shape::crowded(rng, 150),
        1 => Shape::random(rng, 120, 12),
        _ => Shape::random(rng, 40, 4),
    }
}

#[test]
fn sheets_and_plans_of_generated_games_agree() {
    let mut rng = Rng::new(201);
    let mut trial = Trial::new();
    for round in 0..450 {
        let shape = shape_of(&mut rng, round);
        let file = bytes_of(&random_game(&mut rng, &shape));
        let game = check_game(&file).expect("accepted");
        for bytes in drawn_plans(&mut rng, &game) {
            let plan = check_plan(&game, &bytes).expect("a plan that fits");
            trial.sheets_of(&mut rng, &file, &plan);
            trial.plans_of(&mut rng, &file, &plan);
        }
        let [plan, ..] = drawn_plans(&mut rng, &game);
        let sheet = pure_sheet(&mut rng, &game).bytes(&game).expect("odds");
        for refusal in 1..=13 {
            if let Some(damaged) = aim_at_game(&mut rng, &game, refusal) {
                assert_eq!(trial.files(&damaged, &sheet, &plan), [refusal; 2]);
            }
        }
    }
    let Trial { sheets, plans, .. } = trial;
    assert!(sheets.iter().sum::<usize>() > 20_000, "{sheets:?}");
    assert!(plans.iter().sum::<usize>() > 12_000, "{plans:?}");
    for refusal in [0, 19, 20, 21] {
        assert!(sheets[refusal] > 2_000, "{sheets:?}");
    }
    assert!(plans[0] > 1_700, "{plans:?}");
    assert!(
        plans[14..17].iter().all(|&count| count > 1_500),
        "{plans:?}"
    );
    for refusals in [sheets, plans] {
        assert!(refusals[1..14].iter().all(|&count| count > 150));
    }
}

#[test]
fn sheets_and_plans_of_large_games_agree() {
    let mut rng = Rng::new(4_095);
    let mut trial = Trial::new();
    for tables in large_games(&mut rng) {
        let file = bytes_of(&tables);
        let game = check_game(&file).expect("accepted");
        let [drawn, multiple, ..] = drawn_plans(&mut rng, &game);
        for bytes in [drawn, multiple] {
            let plan = check_plan(&game, &bytes).expect("a plan that fits");
            trial.sheets_of(&mut rng, &file, &plan);
            trial.plans_of(&mut rng, &file, &plan);
        }
    }
    let Trial { sheets, plans, .. } = trial;
    for refusal in [0, 19, 20, 21] {
        assert!(sheets[refusal] > 50, "{sheets:?}");
    }
    for refusal in [0, 14, 15, 16] {
        assert!(plans[refusal] > 40, "{plans:?}");
    }
}

/// The smallest D is 2 to the power of the sets: found for 11 of them, and given up at 12 of 255.
#[test]
fn even_odds_at_sets_in_a_row_agree() {
    let mut trial = Trial::new();
    for player in Player::BOTH {
        for (sets, wanted) in [(1, 0), (11, 0), (12, 21), (100, 21), (255, 21)] {
            let file = bytes_of(&row_of_sets(player, sets));
            let game = check_game(&file).expect("accepted");
            for odds in [1, 3, 4_095] {
                let list = vec![odds; 2 * sets as usize];
                let sheet = SheetOdds::in_plan_order(&game, &list);
                let sheet = sheet.bytes(&game).expect("odds of 12 bits");
                assert_eq!(trial.sheet(&file, Ok(&game), &sheet), wanted);
            }
        }
    }
}

#[test]
fn arbitrary_bytes_get_their_number() {
    let mut rng = Rng::new(19);
    let mut trial = Trial::new();
    let study = bytes_of(&study_game());
    let backward = bytes_of(&backward());
    let mut bytes = |length: usize| -> Vec<u8> { (0..length).map(|_| rng.word() as u8).collect() };
    for length in [0, 1, 2, 4, 6, 8, 9, 10, 13, 6_141, 1 << 20] {
        for _ in 0..20 {
            let (one, two) = (bytes(length), bytes(length));
            trial.files(&one, &two, &two);
            trial.files(&study, &one, &two);
            trial.files(&backward, &two, &one);
        }
    }
    assert!(trial.sheets[19] > 200, "{:?}", trial.sheets);
    assert!(trial.plans[14] > 200, "{:?}", trial.plans);
}

/// Every sheet of the study game with odds up to 3. Of 4,096 there are 256 without odds for player
/// 2; of the others 240 without odds at L and R, and 180 with odds at L and none at S and T.
#[test]
fn all_small_odds_agree() {
    let mut trial = Trial::new();
    let study = bytes_of(&study_game());
    let game = check_game(&study).expect("accepted");
    for number in 0..4_096 {
        let odds: Vec<u64> = (0..6).map(|place| number >> (2 * place) & 3).collect();
        let sheet = SheetOdds::in_plan_order(&game, &odds);
        let sheet = sheet.bytes(&game).expect("odds of 12 bits");
        trial.sheet(&study, Ok(&game), &sheet);
    }
    let refused = 256 + 240 + 180;
    assert_eq!(
        [trial.sheets[0], trial.sheets[20]],
        [4_096 - refused, refused]
    );
}

/// One of the two calls.
type Call = fn(&[u8], &[u8], &mut Output) -> Result<(), Refusal>;

/// What a call of the library gives, in a buffer that is long enough.
fn made(call: Call, game: &[u8], given: &[u8]) -> Result<Vec<u8>, Refusal> {
    let mut out = patterned(LONGEST);
    call(game, given, &mut out)?;
    out.bytes.truncate(out.length as usize);
    Ok(out.bytes)
}

#[test]
fn of_two_broken_rules_the_first_is_given() {
    let mut trial = Trial::new();
    let study = bytes_of(&study_game());
    let refused = bytes_of(&set_below_itself());
    let game = check_game(&study).expect("accepted");
    let m = plan_m().bytes().expect("a plan that fits");
    let misfit = changed(&m, plan_weight(0), 2);
    // 13 before 19 and 14, 19 before 20.
    assert_eq!(trial.files(&refused, &[1], &m), [13, 13]);
    assert_eq!(trial.files(&study, &[0; 10], &m[..12]), [19, 14]);
    assert_eq!(trial.files(&study, &[0; 9], &misfit), [20, 16]);
    // 20 of one player before 21 of the other, and 21 before 18.
    for (odds, refusal) in [
        ([1, 4_095, 1, 0, 0, 0], 20),
        ([0, 0, 1, 0, 1, 4_095], 20),
        ([1, 4_095, 0, 0, 1, 0], 20),
        ([1, 4_095, 1, 0, 1, 0], 21),
        ([1, 0, 1, 0, 1, 4_095], 21),
        ([1, 4_094, 1, 0, 1, 0], 0),
    ] {
        let sheet = SheetOdds::in_plan_order(&game, &odds);
        let sheet = sheet.bytes(&game).expect("odds of 12 bits");
        assert_eq!(trial.sheet(&study, Ok(&game), &sheet), refusal);
        let mut out = patterned(12);
        let answer = plan_from_sheet(&study, &sheet, &mut out);
        assert_eq!(answer, Err([18, refusal][usize::from(refusal > 0)]));
        assert_eq!(out, patterned(12));
    }
    // 16 before 18, and 18.
    let mut out = patterned(8);
    assert_eq!(sheet_from_plan(&study, &misfit, &mut out), Err(16));
    assert_eq!(sheet_from_plan(&study, &m, &mut out), Err(18));
    assert_eq!(out, patterned(8));
}

/// Worked by hand: the odds L R S T l r, and D1, D2 and the weights of the plan, with the odds
/// that come back.
#[test]
fn the_study_games_sheets_have_the_plans_worked_by_hand() {
    let study = bytes_of(&study_game());
    let game = check_game(&study).expect("accepted");
    type Worked = ([u64; 6], [u64; 2], [u64; 6], [u64; 6]);
    let worked: [Worked; 5] = [
        (
            [1, 0, 1, 2, 1, 2],
            [3, 3],
            [3, 0, 1, 2, 1, 2],
            [1, 0, 1, 2, 1, 2],
        ),
        (
            [1, 2, 1, 4, 3, 6],
            [15, 3],
            [5, 10, 1, 4, 1, 2],
            [1, 2, 1, 4, 1, 2],
        ),
        (
            [2, 2, 2, 1, 1, 0],
            [6, 1],
            [3, 3, 2, 1, 1, 0],
            [1, 1, 2, 1, 1, 0],
        ),
        (
            [6, 4, 5, 1, 1, 0],
            [10, 1],
            [6, 4, 5, 1, 1, 0],
            [3, 2, 5, 1, 1, 0],
        ),
        (
            [0, 7, 5, 8, 4, 0],
            [1, 1],
            [0, 1, 0, 0, 1, 0],
            [0, 1, 0, 0, 1, 0],
        ),
    ];
    for (odds, [d1, d2], weights, back) in worked {
        let sheet = SheetOdds::in_plan_order(&game, &odds);
        let sheet = sheet.bytes(&game).expect("odds of 12 bits");
        let [one, two] = [&weights[..4], &weights[4..]];
        let wanted = PlanWeights {
            weights: [[&[d1], one].concat(), [&[d2], two].concat()],
        };
        let plan = made(plan_from_sheet, &study, &sheet);
        assert_eq!(plan, wanted.bytes());
        let back = SheetOdds::in_plan_order(&game, &back).bytes(&game);
        assert_eq!(made(sheet_from_plan, &study, &plan.expect("taken")), back);
    }
    let m = plan_m().bytes().expect("a plan that fits");
    let sheet = vec![0x00, 0x10, 0x00, 0x00, 0x10, 0x02, 0x00, 0x10, 0x02];
    assert_eq!(made(sheet_from_plan, &study, &m), Ok(sheet.clone()));
    assert_eq!(made(plan_from_sheet, &study, &sheet), Ok(m));
    let f = plan_f().bytes().expect("a plan that fits");
    let sheet = SheetOdds::in_plan_order(&game, &[0, 1, 0, 0, 1, 1]);
    assert_eq!(made(sheet_from_plan, &study, &f), sheet.bytes(&game));
    // Set 0 after move 0 of set 1: D1 = 6, and no set of player 2.
    let file = bytes_of(&backward());
    let game = check_game(&file).expect("accepted");
    let sheet = SheetOdds::in_plan_order(&game, &[1, 2, 1, 1]);
    let sheet = sheet.bytes(&game).expect("odds of 12 bits");
    let plan = PlanWeights {
        weights: [vec![6, 1, 2, 3, 3], vec![1]],
    };
    assert_eq!(made(plan_from_sheet, &file, &sheet), plan.bytes());
    // No sets: a sheet without bytes.
    let leaf = bytes_of(&one_leaf([-1, 1]));
    let plan = vec![0x10, 0x01, 0x00, 0x10];
    assert_eq!(made(plan_from_sheet, &leaf, &[]), Ok(plan.clone()));
    assert_eq!(made(sheet_from_plan, &leaf, &plan), Ok(Vec::new()));
}

/// The example of Kuhn's equilibrium: its sheet gives its plan, the plan its sheet, and the pair is
/// accepted.
#[test]
fn the_example_of_kuhn_poker_agrees() {
    let folder = Path::new(env!("CARGO_MANIFEST_DIR")).join("../../examples/kuhn-equilibrium");
    let files = ["game.bin", "plan.bin", "sheet.bin"].map(|file| fs::read(folder.join(file)));
    let [game, plan, sheet] = files.map(|file| file.expect("a committed file"));
    let of_sheet = made(plan_from_sheet, &game, &sheet).expect("taken");
    assert_eq!(of_sheet, plan);
    assert_eq!(made(sheet_from_plan, &game, &plan), Ok(sheet));
    let mut judged = VerdictBuffers::with_room(6);
    assert_eq!(verdict(&game, &of_sheet, &mut judged), Ok(()));
    assert_eq!(judged.player, 0);
}

/// The odds of a sheet in lowest terms where its player arrives, zeros elsewhere.
fn lowest_terms(sheet: &Sheet) -> SheetOdds {
    let sets = sheet.odds().iter().enumerate();
    let at_set = |(set, odds): (usize, &Vec<u64>)| {
        let common = |divisor: &u64| odds.iter().all(|odds| odds % divisor == 0);
        match (1..=LARGEST).rev().find(common) {
            Some(divisor) if sheet.arrives_at(set) => {
                odds.iter().map(|odds| odds / divisor).collect()
            }
            _ => vec![0; odds.len()],
        }
    };
    SheetOdds {
        by_set: sets.map(at_set).collect(),
    }
}

fn same_probabilities(one: &Plan, other: &Plan) -> bool {
    Player::BOTH.iter().all(|&player| {
        let (one, other) = (one.weights(player), other.weights(player));
        let mut pairs = one.iter().zip(other);
        pairs.all(|(a, b)| a * other[0] == b * one[0])
    })
}

/// Sheet to plan to sheet.
fn sheet_comes_back(file: &[u8], game: &Game, bytes: &[u8]) {
    let plan = made(plan_from_sheet, file, bytes).expect("taken");
    let fitting = check_plan(game, &plan).expect("a plan that fits");
    assert!(Player::BOTH.map(|player| is_over_smallest(&fitting, player)) == [true; 2]);
    let sheet = check_sheet(game, bytes, WIDTH).expect("taken");
    let lowest = lowest_terms(&sheet).bytes(game).expect("odds of 12 bits");
    assert_eq!(made(sheet_from_plan, file, &plan), Ok(lowest.clone()));
    assert_eq!(made(plan_from_sheet, file, &lowest), Ok(plan));
}

/// Plan to sheet to plan; whether it is the same, bit for bit.
fn plan_comes_back(file: &[u8], game: &Game, bytes: &[u8]) -> bool {
    let plan = check_plan(game, bytes).expect("a plan that fits");
    let sheet = made(sheet_from_plan, file, bytes).expect("a plan that fits");
    let back = made(plan_from_sheet, file, &sheet).expect("taken");
    let again = check_plan(game, &back).expect("a plan that fits");
    assert!(same_probabilities(&plan, &again));
    assert!(Player::BOTH.map(|player| is_over_smallest(&again, player)) == [true; 2]);
    let over = Player::BOTH.map(|player| is_over_smallest(&plan, player));
    assert_eq!(back == bytes, over == [true; 2]);
    back == bytes
}

#[test]
fn sheets_and_plans_come_back_through_the_library() {
    let mut rng = Rng::new(202);
    let mut games: Vec<GameTables> = vec![study_game(), backward(), kuhn(), leduc(), most_nodes()];
    for round in 0..500 {
        let shape = match round % 100 {
            0 => Shape::full(&mut rng),
            1 => Shape::deep(&mut rng),
            _ => shape_of(&mut rng, round),
        };
        games.push(random_game(&mut rng, &shape));
    }
    let mut same = [0; 2];
    for tables in games {
        let file = bytes_of(&tables);
        let game = check_game(&file).expect("accepted");
        for bytes in drawn_plans(&mut rng, &game) {
            same[usize::from(plan_comes_back(&file, &game, &bytes))] += 1;
            let plan = check_plan(&game, &bytes).expect("a plan that fits");
            let sheet = sheet_of(&mut rng, &plan).bytes(&game);
            sheet_comes_back(&file, &game, &sheet.expect("odds of 12 bits"));
        }
    }
    assert!(same.iter().all(|&count| count > 400), "{same:?}");
}
