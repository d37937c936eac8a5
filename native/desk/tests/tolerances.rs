//! House tolerance: the proved library and plain Rust against every pure strategy of small games
//! and against the independent implementation on large ones, and the library against its own
//! verdict.

use desk::drawn::{damaged_pairs, large_games};
use desk::tolerance::tolerates;
use desk::variants::{self, Variant, COUNT, NAMES};
use desk::verdict::{verdict, VerdictBuffers};
use desk::Refusal;
use generator::edit::{changed, plan_weight};
use generator::games::{game_of_few_strategies, random_game};
use generator::named::{
    one_choice, one_leaf, pair_a, pair_b, pair_c, plan_f, plan_m, plan_q, set_below_itself,
    study_game,
};
use generator::near::{averaged_best_responses, pairs_near, pairs_of_each_kind, shifted_by_one};
use generator::plans::{even_plan, random_plan, random_pure_plan};
use generator::poker::{kuhn, kuhn_equilibrium, leduc};
use generator::rng::Rng;
use generator::shape::{random_count, Shape};
use generator::tables::{GameTables, PlanWeights};
use generator::tolerances::tolerances_near;
use reference::brute;
use reference::game::{check_game, Game, Player};
use reference::limits::MOST_ENTRIES;
use reference::plan::{check_plan, Plan};
use reference::tolerance::{largest_gain, passes};

/// Games with more pure strategies for a player are not tried by brute force.
const LIMIT: usize = 256;

/// What a lent number is before each call.
const HELD: u64 = 123_456_789;

/// How far from a gain in thousandths, rounded up, tolerances are tried: to one below the gain
/// rounded down.
const REACH: i128 = 2;

/// How often each kind of case was met.
#[derive(Debug, Default)]
struct Tally {
    /// Pairs with a tolerance.
    tried: usize,
    passed: usize,
    /// The gain of one player alone lies above, by player.
    one_decides: [usize; 2],
    /// A gain above 0 is the tolerance itself.
    equal: usize,
    /// Tolerance 0 fails, and passes.
    at_0: [usize; 2],
    /// Pairs by their refusal, 0 where there was none.
    refusals: [usize; 17],
}

impl Tally {
    fn count(&mut self, plan: &Plan, gains: [i128; 2], tolerance: u16) {
        let most = i128::from(tolerance) * i128::from(plan.value_base());
        let above = gains.map(|gain| 1_000 * gain > most);
        let fails = above.contains(&true);
        self.tried += 1;
        self.passed += usize::from(!fails);
        self.one_decides[0] += usize::from(above == [true, false]);
        self.one_decides[1] += usize::from(above == [false, true]);
        let is_equal = |&gain: &i128| gain > 0 && 1_000 * gain == most;
        self.equal += usize::from(gains.iter().any(is_equal));
        self.at_0[usize::from(!fails)] += usize::from(tolerance == 0);
    }
}

/// All implementations, and what was met.
struct Trial {
    variants: [Box<dyn Variant>; COUNT],
    tally: Tally,
}

impl Trial {
    fn new() -> Trial {
        Trial {
            variants: variants::all(),
            tally: Tally::default(),
        }
    }

    /// Every implementation must give this answer at a tolerance; the number that is lent takes 1
    /// or 0, or stays as it was where the files are refused.
    fn compare(&mut self, game: &[u8], plan: &[u8], tolerance: u16, wanted: Result<bool, Refusal>) {
        let after = wanted.map_or(HELD, u64::from);
        for (variant, name) in self.variants.iter_mut().zip(NAMES) {
            let mut passes = HELD;
            let answer = variant.tolerates(game, plan, tolerance, &mut passes);
            assert_eq!(answer, wanted.map(|_| ()), "{name} at {tolerance}");
            assert_eq!(passes, after, "{name} at {tolerance}");
        }
    }

    /// A pair that fits at every tolerance around its gains.
    fn pair(&mut self, file: &[u8], bytes: &[u8], plan: &Plan, judge: impl Fn(u16) -> bool) {
        let gains = Player::BOTH.map(|player| largest_gain(plan, player));
        for tolerance in tolerances_near(plan, REACH) {
            self.compare(file, bytes, tolerance, Ok(judge(tolerance)));
            self.tally.count(plan, gains, tolerance);
        }
        compare_verdict(file, bytes);
        self.tally.refusals[0] += 1;
    }

    /// A pair by the independent implementation.
    fn weights(&mut self, file: &[u8], game: &Game, pair: &PlanWeights) {
        let bytes = pair.bytes().expect("a plan that fits");
        let plan = check_plan(game, &bytes).expect("a plan that fits");
        self.pair(file, &bytes, &plan, |tolerance| passes(&plan, tolerance));
    }

    /// Any two files; the refusal, or 0.
    fn files(&mut self, file: &[u8], bytes: &[u8]) -> Refusal {
        let game = check_game(file);
        let game = game.as_ref().map_err(|&refusal| refusal);
        match game.and_then(|game| check_plan(game, bytes)) {
            Ok(plan) => {
                self.pair(file, bytes, &plan, |tolerance| passes(&plan, tolerance));
                0
            }
            Err(refusal) => {
                for tolerance in [0, 1, u16::MAX] {
                    self.compare(file, bytes, tolerance, Err(refusal));
                    self.tally.tried += 1;
                }
                compare_verdict(file, bytes);
                self.tally.refusals[usize::from(refusal)] += 1;
                refusal
            }
        }
    }
}

/// The library's answer at a tolerance.
fn judged(game: &[u8], plan: &[u8], tolerance: u16) -> Result<u64, Refusal> {
    let mut passes = HELD;
    tolerates(game, plan, tolerance, &mut passes)?;
    Ok(passes)
}

/// The library's verdict must be its answer at tolerance 0.
fn compare_verdict(game: &[u8], plan: &[u8]) {
    let mut shown = VerdictBuffers::with_room(MOST_ENTRIES);
    let accepted = verdict(game, plan, &mut shown).map(|()| u64::from(shown.player == 0));
    assert_eq!(judged(game, plan, 0), accepted);
}

fn accepted(tables: &GameTables) -> (Vec<u8>, Game) {
    let file = tables.bytes().expect("a game that fits");
    let game = check_game(&file).expect("accepted");
    (file, game)
}

/// Each pair by every pure strategy over the leaves.
#[test]
fn tolerances_agree_with_all_pure_strategies() {
    let mut rng = Rng::new(203);
    let mut trial = Trial::new();
    while trial.tally.tried < 40_000 {
        let (file, game) = accepted(&game_of_few_strategies(&mut rng, LIMIT));
        let mut pairs = pairs_near(&mut rng, &game);
        pairs.push(random_pure_plan(&mut rng, &game));
        for pair in pairs {
            let bytes = pair.bytes().expect("a plan that fits");
            let plan = check_plan(&game, &bytes).expect("a plan that fits");
            let judge = |tolerance| brute::passes(&plan, tolerance, LIMIT).expect("few strategies");
            trial.pair(&file, &bytes, &plan, judge);
        }
    }
    let tally = trial.tally;
    assert!(tally.passed > 15_000, "{tally:?}");
    assert!(tally.tried - tally.passed > 10_000, "{tally:?}");
    assert!(
        tally.one_decides.iter().all(|&count| count > 2_000),
        "{tally:?}"
    );
    assert!(tally.equal > 500, "{tally:?}");
    assert!(tally.at_0.iter().all(|&count| count > 1_500), "{tally:?}");
}

/// Poker at and near equilibria.
#[test]
fn tolerances_on_poker_agree() {
    let mut rng = Rng::new(31);
    let mut trial = Trial::new();
    let (file, game) = accepted(&kuhn());
    for thirds in [1, 2, 4, 100, 1_365] {
        for bluffs in [0, 1, thirds / 2, thirds] {
            let pair = kuhn_equilibrium(thirds, bluffs);
            let near = shifted_by_one(&mut rng, &game, &pair);
            trial.weights(&file, &game, &pair);
            for pair in near {
                trial.weights(&file, &game, &pair);
            }
        }
    }
    assert!(trial.tally.at_0[1] >= 20, "{:?}", trial.tally);
    let (file, game) = accepted(&leduc());
    trial.weights(&file, &game, &even_plan(&game, [4_095, 4_094]));
    for rounds in [0, 3, 40] {
        let pair = averaged_best_responses(&game, rounds).expect("a plan that fits");
        trial.weights(&file, &game, &pair);
    }
    assert!(trial.tally.tried > 200, "{:?}", trial.tally);
}

#[test]
fn tolerances_on_large_games_agree() {
    let mut rng = Rng::new(2_030);
    let mut trial = Trial::new();
    for tables in large_games(&mut rng) {
        let (file, game) = accepted(&tables);
        for pair in pairs_of_each_kind(&mut rng, &game).expect("plans that fit") {
            trial.weights(&file, &game, &pair);
        }
    }
    let tally = trial.tally;
    assert!(tally.tried > 400, "{tally:?}");
    assert!(tally.passed > 100, "{tally:?}");
    assert!(
        tally.one_decides.iter().all(|&count| count > 20),
        "{tally:?}"
    );
    assert!(tally.at_0.iter().all(|&count| count > 20), "{tally:?}");
}

#[test]
fn refused_files_get_their_number_and_touch_nothing() {
    let mut rng = Rng::new(16_203);
    let mut trial = Trial::new();
    for _ in 0..200 {
        let shape = Shape::random(&mut rng, 100, 10);
        let (file, game) = accepted(&random_game(&mut rng, &shape));
        let denominators = [random_count(&mut rng), random_count(&mut rng)];
        let pair = random_plan(&mut rng, &game, denominators);
        let bytes = pair.bytes().expect("a plan that fits");
        let plan = check_plan(&game, &bytes).expect("a plan that fits");
        for [game, plan] in damaged_pairs(&mut rng, &file, &plan, &bytes) {
            trial.files(&game, &plan);
        }
    }
    let refusals = trial.tally.refusals;
    assert!(refusals.iter().all(|&count| count > 40), "{refusals:?}");
}

#[test]
fn arbitrary_bytes_get_their_number() {
    let mut rng = Rng::new(203);
    let mut trial = Trial::new();
    let study = study_game().bytes().expect("a game that fits");
    let mut bytes = |length: usize| -> Vec<u8> { (0..length).map(|_| rng.word() as u8).collect() };
    for length in [0, 1, 4, 5, 13, 80, 36_860, 1 << 20] {
        for _ in 0..20 {
            let plan = bytes(length);
            assert_ne!(trial.files(&bytes(length), &plan), 0);
            assert_ne!(trial.files(&study, &plan), 0);
        }
    }
}

#[test]
fn of_two_broken_rules_the_first_is_given() {
    let mut trial = Trial::new();
    let study = study_game().bytes().expect("a game that fits");
    let refused = set_below_itself().bytes().expect("a game that fits");
    let m = plan_m().bytes().expect("a plan that fits");
    let misfit = changed(&m, plan_weight(0), 2);
    assert_eq!(trial.files(&[], &[]), 1);
    assert_eq!(trial.files(&refused, &m[..12]), 13);
    assert_eq!(trial.files(&study, &misfit[..12]), 14);
    assert_eq!(trial.files(&study, &misfit), 16);
}

/// Worked by hand, from the last tolerance that fails: the pairs of the study game, and then player
/// 1's choice between two payoffs with these weights.
#[test]
fn worked_pairs_turn_where_they_must() {
    let study = |pair: PlanWeights| (study_game(), pair);
    let choice = |payoffs, weights: [u64; 3]| {
        let weights = [weights.to_vec(), vec![1]];
        (one_choice(payoffs), PlanWeights { weights })
    };
    let (low, high) = (-32_768, 32_767);
    let worked = [
        (study(plan_f()), 499),
        (study(pair_a()), 333),
        (study(pair_b()), 444),
        (study(pair_c()), 666),
        (choice([1, 0], [1_000, 999, 1]), 0),
        (choice([1, 0], [999, 998, 1]), 1),
        (choice([0, 4_094], [4_095, 1, 4_094]), 999),
        (choice([0, 4_096], [4_095, 1, 4_094]), 1_000),
        (choice([low, high], [1_000, 1, 999]), 65_534),
        (choice([0, 17_891], [4_095, 15, 4_080]), 65_534),
        (choice([0, 19_169], [4_095, 14, 4_081]), 65_535),
        (choice([low, 0], [1_000, 2, 998]), 65_535),
        (choice([low, high], [1, 1, 0]), 65_535),
    ];
    for ((tables, pair), last) in worked {
        let game = tables.bytes().expect("a game that fits");
        let plan = pair.bytes().expect("a plan that fits");
        for fails in [0, last / 2, last] {
            assert_eq!(judged(&game, &plan, fails), Ok(0), "{pair:?} at {fails}");
        }
        if let Some(passes) = last.checked_add(1) {
            assert_eq!(judged(&game, &plan, passes), Ok(1), "{pair:?}");
            assert_eq!(judged(&game, &plan, u16::MAX), Ok(1), "{pair:?}");
        }
    }
}

#[test]
fn accepted_pairs_pass_at_0() {
    let leaf = PlanWeights {
        weights: [vec![4_095], vec![4_095]],
    };
    for (tables, pair) in [
        (study_game(), plan_m()),
        (study_game(), plan_q()),
        (one_leaf([-32_768, 32_767]), leaf),
    ] {
        let game = tables.bytes().expect("a game that fits");
        let plan = pair.bytes().expect("a plan that fits");
        for tolerance in [0, 1, u16::MAX] {
            assert_eq!(judged(&game, &plan, tolerance), Ok(1), "{pair:?}");
        }
    }
}

/// Player 2 gains 12 of 27, player 1 only 3.
#[test]
fn pair_b_passes_from_445_on_at_every_tolerance() {
    let game = study_game().bytes().expect("a game that fits");
    let plan = pair_b().bytes().expect("a plan that fits");
    for tolerance in 0..=u16::MAX {
        let wanted = u64::from(tolerance >= 445);
        assert_eq!(judged(&game, &plan, tolerance), Ok(wanted), "{tolerance}");
    }
}
