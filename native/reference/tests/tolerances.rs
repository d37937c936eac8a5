//! House tolerance: pairs worked by hand, drawn ones by every pure strategy, and the wrong turns.

use generator::games::game_of_few_strategies;
use generator::named::{
    one_choice, one_leaf, pair_a, pair_b, pair_c, plan_f, plan_m, plan_q, plan_r_against_thirds,
    study_game,
};
use generator::near::pairs_near;
use generator::plans::random_plan;
use generator::poker::{kuhn, kuhn_equilibrium};
use generator::rng::Rng;
use generator::tables::{GameTables, PlanWeights};
use generator::tolerances::tolerances_near;
use reference::brute;
use reference::form::value_count;
use reference::game::{check_game, Game, Player};
use reference::plan::{check_plan, Plan};
use reference::tolerance::{largest_gain, passes, thousandths};
use reference::verdict::{verdict, Verdict};

/// Games with more pure strategies for a player are left out.
const LIMIT: usize = 256;

fn game_of(tables: &GameTables) -> Game {
    check_game(&tables.bytes().unwrap()).unwrap()
}

fn plan_of<'g>(game: &'g Game, pair: &PlanWeights) -> Plan<'g> {
    check_plan(game, &pair.bytes().unwrap()).unwrap()
}

/// Player 1's weights over D1, without a move for player 2.
fn weights_of_one(weights: [u64; 3]) -> PlanWeights {
    PlanWeights {
        weights: [weights.to_vec(), vec![1]],
    }
}

fn gains(plan: &Plan) -> [i128; 2] {
    Player::BOTH.map(|player| largest_gain(plan, player))
}

/// A pair must pass from this tolerance on, and not before; at none where nothing is given.
fn check_all_tolerances(tables: &GameTables, pair: &PlanWeights, least: Option<u16>) {
    let game = game_of(tables);
    let plan = plan_of(&game, pair);
    for tolerance in 0..=u16::MAX {
        let wanted = least.is_some_and(|least| tolerance >= least);
        assert_eq!(passes(&plan, tolerance), wanted, "{pair:?} at {tolerance}");
    }
}

/// Worked by hand from the leaves R, lS, lT, rS and rT, each value over D1 × D2 and each best
/// value over the other's D, times his own.
///
/// - A: value 1 is 27 + 4 + 0 + 20 + 48 = 99; R earns 9, S 2 + 10, T 0 + 12: best 12 × 9 = 108.
///   Value 2 is 27 + 4 + 12 + 24 + 8 = 75; 9 by R and l 4 + 12 or r 12 + 4: best 25 × 3 = 75.
/// - B: value 1 is 54 + 8 + 0 + 10 + 6 = 78; R earns 9, S 4 + 5, T 0 + 6: best 9 × 9 = 81.
///   Value 2 is 54 + 8 + 6 + 12 + 1 = 81; 18 by R and l 4 + 3 or r 12 + 1: best 31 × 3 = 93.
/// - C: value 1 is 54 + 2 + 0 + 10 + 24 = 90; R earns 9, S 2 + 10, T 0 + 12: best 12 × 9 = 108.
///   Value 2 is 54 + 2 + 6 + 12 + 4 = 78; 18 by R and l 2 + 6 or r 6 + 2: best 26 × 3 = 78.
#[test]
fn the_study_games_pairs_have_the_gains_worked_by_hand() {
    let game = game_of(&study_game());
    for (pair, wanted, base) in [
        (plan_f(), [1, 0], 2),
        (plan_m(), [0, 0], 9),
        (pair_a(), [9, 0], 27),
        (pair_b(), [3, 12], 27),
        (pair_c(), [18, 0], 27),
    ] {
        let plan = plan_of(&game, &pair);
        assert_eq!((gains(&plan), plan.value_base()), (wanted, base));
    }
}

/// A third of a point is more than 333 thousandths, 12 of 27 more than 444, 18 of 27 more than
/// 666. Player 1's gain in pair B is at most 112.
#[test]
fn the_study_games_pairs_pass_from_these_tolerances_on() {
    for (pair, least) in [
        (plan_q(), 0),
        (plan_m(), 0),
        (plan_r_against_thirds(), 0),
        (plan_f(), 500),
        (plan_f().scaled([4_095, 2_047]), 500),
        (pair_a(), 334),
        (pair_b(), 445),
        (pair_c(), 667),
    ] {
        check_all_tolerances(&study_game(), &pair, Some(least));
    }
}

#[test]
fn a_pair_without_a_choice_passes_at_0() {
    let pair = PlanWeights {
        weights: [vec![4_095], vec![7]],
    };
    check_all_tolerances(&one_leaf([-32_768, 32_767]), &pair, Some(0));
}

/// The gain is the weight of the worse move × what lies between the payoffs, over D1.
#[test]
fn gains_at_and_around_whole_thousandths_pass_from_there_on() {
    let worked = [
        ([1, 0], [1_000, 999, 1], 1),
        ([1, 0], [1_001, 1_000, 1], 1),
        ([1, 0], [999, 998, 1], 2),
        ([1, 0], [4_095, 4_094, 1], 1),
        ([1, 0], [4_000, 3_997, 3], 1),
        ([1, 0], [4_000, 3_996, 4], 1),
        ([1, 0], [4_000, 3_995, 5], 2),
        ([1, 0], [8, 7, 1], 125),
        ([0, 1], [1, 1, 0], 1_000),
        ([0, 4_094], [4_095, 1, 4_094], 1_000),
        ([0, 4_096], [4_095, 1, 4_094], 1_001),
    ];
    for (payoffs, weights, least) in worked {
        let pair = weights_of_one(weights);
        check_all_tolerances(&one_choice(payoffs), &pair, Some(least));
    }
}

/// 65,535 × 1 over 1,000 is the largest tolerance; 17,891 × 15 over 4,095 is less than that by
/// 0.2 thousandths, 19,169 × 14 over 4,095 more by 0.04, and 32,768 × 2 over 1,000 more by 1. The
/// largest gain of all is a thousand times as large.
#[test]
fn gains_around_the_largest_tolerance_pass_or_not() {
    let (low, high) = (-32_768, 32_767);
    for (payoffs, weights, least) in [
        ([low, high], [1_000, 1, 999], Some(65_535)),
        ([0, 17_891], [4_095, 15, 4_080], Some(65_535)),
        ([0, 19_169], [4_095, 14, 4_081], None),
        ([low, 0], [1_000, 2, 998], None),
        ([low, high], [1, 1, 0], None),
    ] {
        let pair = weights_of_one(weights);
        check_all_tolerances(&one_choice(payoffs), &pair, least);
    }
}

/// Player 2 calls with the lowest card once in 3. Player 1's bets with the middle and the highest
/// card then earn 1 of 18 more each, which makes 8 for the highest: his best value is -6 - 2 + 8 =
/// 0 of 18, his value -72 - 24 + 87 = -9 of 216. Player 2's best value stays at 12 of 216, so that
/// she gains 3.
#[test]
fn a_pair_near_kuhns_equilibrium_passes_from_its_gain_on() {
    let mut pair = kuhn_equilibrium(4, 1);
    check_all_tolerances(&kuhn(), &pair, Some(0));
    pair.weights[1][3..5].copy_from_slice(&[2, 1]);
    let game = game_of(&kuhn());
    let plan = plan_of(&game, &pair);
    assert_eq!((gains(&plan), plan.value_base()), ([9, 3], 216));
    check_all_tolerances(&kuhn(), &pair, Some(42));
}

#[test]
fn thousandths_are_the_fewest_that_are_not_below() {
    let mut rng = Rng::new(203);
    for _ in 0..10_000 {
        let largest_base = 4_095_u64.pow(3) >> rng.below(36);
        let base = rng.between(1, largest_base);
        let largest = (65_535 * base) >> rng.below(52);
        let gain = i128::from(rng.between(0, largest));
        let (found, base_count) = (thousandths(gain, base), i128::from(base));
        assert!(1_000 * gain <= found * base_count, "{gain} of {base}");
        assert!((found - 1) * base_count < 1_000 * gain, "{gain} of {base}");
    }
}

/// How often each kind of case was met.
#[derive(Debug, Default)]
struct Tally {
    tried: usize,
    passed: usize,
    /// Player 1's gain passes and player 2's does not.
    second_decides: usize,
    /// A gain above 0 is the tolerance itself.
    equal: usize,
}

impl Tally {
    fn count(&mut self, plan: &Plan, gains: [i128; 2], tolerance: u16) {
        let most = i128::from(tolerance) * i128::from(plan.value_base());
        let [first, second] = gains.map(|gain| 1_000 * gain <= most);
        self.tried += 1;
        self.passed += usize::from(first && second);
        self.second_decides += usize::from(first && !second);
        let is_equal = |&gain: &i128| gain > 0 && 1_000 * gain == most;
        self.equal += usize::from(gains.iter().any(is_equal));
    }
}

/// Compares with brute force and with the gains at tolerances around them; a larger tolerance
/// never fails where a smaller one passes, and 0 is the verdict.
fn compare(rng: &mut Rng, plan: &Plan, tally: &mut Tally) {
    let gains = gains(plan);
    let least = gains.map(|gain| thousandths(gain, plan.value_base()));
    let mut tried = tolerances_near(plan, 2);
    tried.extend([(); 3].map(|()| rng.word() as u16));
    tried.sort();
    let mut answers = Vec::new();
    for tolerance in tried {
        let answer = passes(plan, tolerance);
        assert_eq!(Some(answer), brute::passes(plan, tolerance, LIMIT));
        assert_eq!(answer, least.iter().all(|&least| least <= tolerance.into()));
        tally.count(plan, gains, tolerance);
        answers.push(answer);
    }
    assert!(answers.is_sorted());
    assert_eq!(answers[0], verdict(plan) == Verdict::Accepted);
}

#[test]
fn tolerances_agree_with_all_pure_strategies() {
    let mut rng = Rng::new(204);
    let mut tally = Tally::default();
    for _ in 0..2_000 {
        let game = game_of(&game_of_few_strategies(&mut rng, LIMIT));
        for pair in pairs_near(&mut rng, &game) {
            compare(&mut rng, &plan_of(&game, &pair), &mut tally);
        }
    }
    assert!(tally.tried > 40_000, "{tally:?}");
    assert!(tally.passed > 20_000, "{tally:?}");
    assert!(tally.tried - tally.passed > 10_000, "{tally:?}");
    assert!(tally.second_decides > 2_000, "{tally:?}");
    assert!(tally.equal > 300, "{tally:?}");
}

/// A mixed strategy gives each pure one a weight of any size.
#[test]
fn no_mixed_strategy_gains_more_than_a_tolerance_that_passes() {
    let mut rng = Rng::new(205);
    for _ in 0..500 {
        let game = game_of(&game_of_few_strategies(&mut rng, LIMIT));
        let plan = plan_of(&game, &random_plan(&mut rng, &game, [12, 12]));
        let mut tried = tolerances_near(&plan, 0).into_iter();
        let Some(least) = tried.find(|&tolerance| passes(&plan, tolerance)) else {
            continue;
        };
        let most = i128::from(least) * i128::from(plan.value_base());
        for player in Player::BOTH {
            let (mut total, mut earned) = (0, 0);
            for strategy in brute::pure_strategies(&game, player, LIMIT).unwrap() {
                let weight = i128::from(rng.word() >> (32 + rng.below(32)));
                total += weight;
                earned += weight * brute::earnings(&plan, player, &strategy);
            }
            let own = i128::from(plan.denominator(player));
            let gained = earned * own - value_count(&plan, player) * total;
            assert!(1_000 * gained <= most * total);
        }
    }
}

/// A way to judge a pair.
type Judge = fn(&Plan, u16) -> bool;

fn gain_passes(plan: &Plan, gain: i128, tolerance: u16) -> bool {
    1_000 * gain <= i128::from(tolerance) * i128::from(plan.value_base())
}

/// Each wrong turn is told apart by a pair of the study game at a tolerance.
#[test]
fn wrong_turns_give_other_answers() {
    let turns: [(&str, Judge, PlanWeights, u16); 8] = [
        (
            "player 1 alone",
            |plan, tolerance| gain_passes(plan, gains(plan)[0], tolerance),
            pair_b(),
            112,
        ),
        (
            "the player alone who is shown",
            |plan, tolerance| {
                let shown = gains(plan).into_iter().find(|&gain| gain > 0);
                gain_passes(plan, shown.unwrap_or(0), tolerance)
            },
            pair_b(),
            444,
        ),
        (
            "player 2 alone",
            |plan, tolerance| gain_passes(plan, gains(plan)[1], tolerance),
            pair_a(),
            333,
        ),
        (
            "both gains added up",
            |plan, tolerance| gain_passes(plan, gains(plan).iter().sum(), tolerance),
            pair_b(),
            445,
        ),
        (
            "an equal gain does not pass",
            |plan, tolerance| {
                let most = i128::from(tolerance) * i128::from(plan.value_base());
                gains(plan).iter().all(|&gain| 1_000 * gain < most)
            },
            plan_f(),
            500,
        ),
        (
            "rounded down",
            |plan, tolerance| {
                let base = i128::from(plan.value_base());
                let cut = gains(plan).map(|gain| 1_000 * gain / base);
                cut.iter().all(|&cut| cut <= tolerance.into())
            },
            pair_a(),
            333,
        ),
        (
            "rounded to the nearest",
            |plan, tolerance| {
                let base = i128::from(plan.value_base());
                let nearest = gains(plan).map(|gain| (1_000 * gain + base / 2) / base);
                nearest.iter().all(|&nearest| nearest <= tolerance.into())
            },
            pair_b(),
            444,
        ),
        (
            "0 is no tolerance",
            |plan, tolerance| tolerance == 0 || passes(plan, tolerance),
            plan_f(),
            0,
        ),
    ];
    let game = game_of(&study_game());
    for (name, judge, pair, tolerance) in turns {
        let plan = plan_of(&game, &pair);
        assert_ne!(judge(&plan, tolerance), passes(&plan, tolerance), "{name}");
    }
}
