//! Best values and verdicts against every pure strategy of small games.

use generator::games::game_of_few_strategies;
use generator::near::pairs_near;
use generator::plans::{pure_weights, random_plan};
use generator::rng::Rng;
use reference::brute;
use reference::form::{best_response, gain_count, value_count};
use reference::game::{check_game, Game, Kind, Move, Player};
use reference::plan::{check_plan, Plan};
use reference::verdict::{verdict, Verdict};

/// Games with more pure strategies for a player are left out.
const LIMIT: usize = 256;

/// How often each kind of case was met.
#[derive(Debug, Default)]
struct Tally {
    games: usize,
    pairs: usize,
    accepted: usize,
    deviations: [usize; 2],
    both_gain: usize,
    sets_after_larger_ones: usize,
    sets_of_several_nodes: usize,
}

fn small_game(rng: &mut Rng) -> Game {
    let tables = game_of_few_strategies(rng, LIMIT);
    check_game(&tables.bytes().unwrap()).unwrap()
}

fn count_game(tally: &mut Tally, game: &Game) {
    tally.games += 1;
    let sets = 0..game.sets().len();
    let after_larger = |&set: &usize| {
        let leading = game.leading_sequence(set).unwrap();
        leading.iter().any(|choice| choice.set > set)
    };
    tally.sets_after_larger_ones += sets.filter(after_larger).count();
    let members = |set: usize| {
        let here = Kind::Decision { set };
        game.nodes().iter().filter(|node| node.kind == here).count()
    };
    let crowded = (0..game.sets().len()).filter(|&set| members(set) > 1);
    tally.sets_of_several_nodes += crowded.count();
}

fn count_verdict(tally: &mut Tally, plan: &Plan) {
    tally.pairs += 1;
    match verdict(plan) {
        Verdict::Accepted => tally.accepted += 1,
        Verdict::Deviation(shown) => tally.deviations[shown.player.index()] += 1,
    }
    let gains = Player::BOTH
        .map(|player| gain_count(plan, player, best_response(plan, player).count()) > 0);
    tally.both_gain += usize::from(gains == [true, true]);
}

/// Compares with brute force: best values, worthiest moves, verdict, and what
/// the shown strategy earns.
fn compare(plan: &Plan) {
    for player in Player::BOTH {
        let best = best_response(plan, player);
        let most = brute::best_earnings(plan, player, LIMIT).unwrap();
        assert_eq!(best.count(), most);
        let moves = brute::worthiest_moves(plan, player, LIMIT).unwrap();
        assert_eq!(best.moves, moves);
        assert_eq!(brute::earnings(plan, player, &best.moves), most);
        let own = i128::from(plan.denominator(player));
        assert!(most * own >= value_count(plan, player));
    }
    assert_eq!(Some(verdict(plan)), brute::verdict(plan, LIMIT));
}

#[test]
fn verdicts_agree_with_all_pure_strategies() {
    let mut rng = Rng::new(71);
    let mut tally = Tally::default();
    for _ in 0..4_000 {
        let game = small_game(&mut rng);
        count_game(&mut tally, &game);
        for pair in pairs_near(&mut rng, &game) {
            let bytes = pair.bytes().unwrap();
            let plan = check_plan(&game, &bytes).unwrap();
            compare(&plan);
            count_verdict(&mut tally, &plan);
        }
    }
    assert!(tally.games == 4_000 && tally.pairs > 12_000, "{tally:?}");
    assert!(tally.accepted > 5_000, "{tally:?}");
    assert!(
        tally.deviations.iter().all(|&count| count > 2_000),
        "{tally:?}"
    );
    assert!(tally.both_gain > 1_000, "{tally:?}");
    assert!(tally.sets_after_larger_ones > 5_000, "{tally:?}");
    assert!(tally.sets_of_several_nodes > 3_000, "{tally:?}");
}

#[test]
fn every_sequence_is_worth_what_brute_force_says() {
    let mut rng = Rng::new(72);
    for _ in 0..500 {
        let game = small_game(&mut rng);
        let bytes = random_plan(&mut rng, &game, [7, 11]).bytes().unwrap();
        let plan = check_plan(&game, &bytes).unwrap();
        for player in Player::BOTH {
            let worths = best_response(&plan, player).worths;
            for set in game.sets_of(player) {
                for number in 0..game.sets()[set].moves {
                    let choice = Move { set, number };
                    let worth = brute::move_worth(&plan, player, choice, LIMIT);
                    let sequence = game.move_sequence(choice).unwrap();
                    assert_eq!(Some(worths[sequence]), worth);
                }
            }
        }
    }
}

/// A mixed strategy gives each pure one a weight of any size.
#[test]
fn no_mixed_strategy_earns_more_than_the_best() {
    let mut rng = Rng::new(73);
    for _ in 0..500 {
        let game = small_game(&mut rng);
        let bytes = random_plan(&mut rng, &game, [12, 12]).bytes().unwrap();
        let plan = check_plan(&game, &bytes).unwrap();
        for player in Player::BOTH {
            let best = best_response(&plan, player).count();
            let strategies = brute::pure_strategies(&game, player, LIMIT).unwrap();
            let (mut total, mut earned) = (0, 0);
            for strategy in &strategies {
                let weight = i128::from(rng.word() >> rng.below(64));
                total += weight;
                earned += weight * brute::earnings(&plan, player, strategy);
            }
            assert!(earned <= best * total);
        }
    }
}

/// A plan earns what its mixture of pure strategies earns: here a pure plan.
#[test]
fn a_pure_plan_earns_what_its_strategy_earns() {
    let mut rng = Rng::new(74);
    for _ in 0..500 {
        let game = small_game(&mut rng);
        let mut pair = random_plan(&mut rng, &game, [1, 9]);
        let bytes = pair.bytes().unwrap();
        let best = best_response(&check_plan(&game, &bytes).unwrap(), Player::One);
        pair.weights[0] = pure_weights(&game, Player::One, &best.moves);
        let bytes = pair.bytes().unwrap();
        let plan = check_plan(&game, &bytes).unwrap();
        let earned = brute::earnings(&plan, Player::One, &best.moves);
        assert_eq!(value_count(&plan, Player::One), earned);
        assert_eq!(earned, best.count());
    }
}
