//! The proved library's verdicts: against every pure strategy of small games, and against the
//! independent implementation on large ones.

use desk::drawn::damaged_pairs;
use desk::verdict::{verdict, VerdictBuffers};
use desk::{expected, plain, Refusal};
use generator::games::{game_of_few_strategies, random_game};
use generator::large::{comb, most_nodes, most_sets};
use generator::named::{
    one_leaf, own_chain, plan_f, plan_m, plan_q, plan_r_against_thirds, study_game, wide_chance,
    wide_decision,
};
use generator::near::{averaged_best_responses, pairs_near, pairs_of_each_kind, shifted_by_one};
use generator::plans::{random_plan, random_pure_plan};
use generator::poker::{kuhn, kuhn_equilibrium, leduc};
use generator::rng::Rng;
use generator::shape::{random_count, Payoffs, Shape};
use generator::tables::{GameTables, PlanWeights};
use reference::brute;
use reference::form::{best_response, value_count};
use reference::game::{check_game, Game, Player};
use reference::plan::{check_plan, Plan};
use reference::verdict::Verdict;
use std::thread;

/// Games with more pure strategies for a player are not tried by brute force.
const LIMIT: usize = 256;

/// As much as a thread has where nothing else is asked for.
const STACK: usize = 2 << 20;

/// Numbers and a buffer of this length, each with a pattern of its own.
fn patterned(length: usize) -> VerdictBuffers {
    VerdictBuffers {
        player: 123_456,
        gain: -654_321,
        base: 111_111,
        count: 222_222,
        moves: (0..length as u64).map(|i| 7_919_000 + i).collect(),
    }
}

/// The buffers after a call that gives this: what lies past the moves stays.
fn filled(given: &VerdictBuffers, before: &VerdictBuffers) -> VerdictBuffers {
    let past = before.moves[given.moves.len()..].iter();
    VerdictBuffers {
        moves: given.moves.iter().chain(past).copied().collect(),
        ..given.clone()
    }
}

/// A call with a buffer of this length must give this answer, and no more.
fn compare_room(game: &[u8], plan: &[u8], wanted: &Result<VerdictBuffers, Refusal>, room: usize) {
    let before = patterned(room);
    let (answer, after) = match wanted {
        Ok(given) if given.moves.len() <= room => (Ok(()), filled(given, &before)),
        Ok(_) => (Err(18), before.clone()),
        Err(refusal) => (Err(*refusal), before.clone()),
    };
    let mut buffers = before.clone();
    assert_eq!(verdict(game, plan, &mut buffers), answer, "room {room}");
    assert_eq!(buffers, after, "room {room}");
}

/// The same pair through plain Rust.
fn compare_plain(game: &[u8], plan: &[u8], wanted: &Result<VerdictBuffers, Refusal>) {
    let judges = [
        plain::verdict::verdict::<plain::BitLoop>,
        plain::verdict::verdict::<plain::Word>,
    ];
    for judge in judges {
        let mut buffers = patterned(wanted.as_ref().map_or(4, |given| given.moves.len()));
        let answer = judge(game, plan, &mut buffers);
        assert_eq!(&answer.map(|()| buffers), wanted);
    }
}

/// A verdict into a buffer exactly long enough, longer, one short and empty.
fn compare_verdict(file: &[u8], bytes: &[u8], plan: &Plan, verdict: &Verdict) {
    let wanted = Ok(expected::verdict(plan, verdict));
    let count = wanted.as_ref().map_or(0, |given| given.moves.len());
    compare_plain(file, bytes, &wanted);
    compare_room(file, bytes, &wanted, count);
    compare_room(file, bytes, &wanted, count + 3);
    if count > 0 {
        compare_room(file, bytes, &wanted, count - 1);
        compare_room(file, bytes, &wanted, 0);
    }
}

/// How often each verdict was met.
#[derive(Debug, Default)]
struct Tally {
    pairs: usize,
    accepted: usize,
    deviations: [usize; 2],
    both_gain: usize,
    second_gains_more: usize,
    gains_of_one: usize,
    no_gain_for_either: usize,
    ties: usize,
}

impl Tally {
    fn count(&mut self, plan: &Plan, verdict: &Verdict) {
        self.pairs += 1;
        match verdict {
            Verdict::Accepted => self.accepted += 1,
            Verdict::Deviation(shown) => self.deviations[shown.player.index()] += 1,
        }
        let gains = Player::BOTH.map(|player| {
            let own = i128::from(plan.denominator(player));
            best_response(plan, player).count() * own - value_count(plan, player)
        });
        let both = gains.iter().all(|&gain| gain > 0);
        self.both_gain += usize::from(both);
        self.second_gains_more += usize::from(both && gains[1] > gains[0]);
        self.gains_of_one += usize::from(gains.contains(&1));
        self.no_gain_for_either += usize::from(gains == [0, 0]);
        if let Verdict::Deviation(shown) = verdict {
            self.ties += usize::from(has_tie(plan, shown.player));
        }
    }
}

/// Whether two moves of one of the player's sets are worth the same.
fn has_tie(plan: &Plan, player: Player) -> bool {
    let worths = best_response(plan, player).worths;
    let game = plan.game();
    game.sets_of(player).into_iter().any(|set| {
        let first = reference::game::Move { set, number: 0 };
        let first = game.move_sequence(first).unwrap_or(0);
        let worths = &worths[first..first + game.sets()[set].moves];
        let most = worths.iter().max();
        worths.iter().filter(|&worth| Some(worth) == most).count() > 1
    })
}

/// Judges a pair by the independent implementation.
fn compare_pair(file: &[u8], game: &Game, pair: &PlanWeights, tally: &mut Tally) {
    let bytes = pair.bytes().expect("a plan that fits");
    let plan = check_plan(game, &bytes).expect("a plan that fits");
    let wanted = reference::verdict::verdict(&plan);
    compare_verdict(file, &bytes, &plan, &wanted);
    tally.count(&plan, &wanted);
}

fn accepted(tables: &GameTables) -> (Vec<u8>, Game) {
    let file = tables.bytes().expect("a game that fits");
    let game = check_game(&file).expect("accepted");
    (file, game)
}

/// At least twenty thousand pairs, each by every pure strategy over the leaves.
#[test]
fn verdicts_agree_with_all_pure_strategies() {
    let mut rng = Rng::new(81);
    let mut tally = Tally::default();
    while tally.pairs < 20_000 {
        let (file, game) = accepted(&game_of_few_strategies(&mut rng, LIMIT));
        let mut pairs = pairs_near(&mut rng, &game);
        pairs.push(random_pure_plan(&mut rng, &game));
        for pair in pairs {
            let bytes = pair.bytes().expect("a plan that fits");
            let plan = check_plan(&game, &bytes).expect("a plan that fits");
            let wanted = brute::verdict(&plan, LIMIT).expect("few strategies");
            compare_verdict(&file, &bytes, &plan, &wanted);
            tally.count(&plan, &wanted);
        }
    }
    assert!(tally.accepted > 5_000, "{tally:?}");
    assert!(
        tally.deviations.iter().all(|&count| count > 2_000),
        "{tally:?}"
    );
    assert!(tally.both_gain > 1_000, "{tally:?}");
    assert!(tally.second_gains_more > 500, "{tally:?}");
    assert!(tally.no_gain_for_either > 3_000, "{tally:?}");
    assert!(tally.gains_of_one > 20, "{tally:?}");
    assert!(tally.ties > 1_000, "{tally:?}");
}

/// Poker at and near equilibria.
#[test]
fn verdicts_on_poker_agree() {
    let mut rng = Rng::new(18);
    let mut tally = Tally::default();
    let (file, game) = accepted(&kuhn());
    for thirds in [1, 2, 4, 100, 1_365] {
        for bluffs in [0, 1, thirds / 2, thirds] {
            let pair = kuhn_equilibrium(thirds, bluffs);
            let near = shifted_by_one(&mut rng, &game, &pair);
            compare_pair(&file, &game, &pair, &mut tally);
            for pair in near {
                compare_pair(&file, &game, &pair, &mut tally);
            }
        }
    }
    assert!(tally.accepted >= 20, "{tally:?}");
    let (file, game) = accepted(&leduc());
    for rounds in [0, 3, 40] {
        let pair = averaged_best_responses(&game, rounds).expect("a plan that fits");
        compare_pair(&file, &game, &pair, &mut tally);
    }
}

/// Pairs of large games.
fn compare_large(rng: &mut Rng, tables: &GameTables, tally: &mut Tally) {
    let (file, game) = accepted(tables);
    for pair in pairs_of_each_kind(rng, &game).expect("plans that fit") {
        compare_pair(&file, &game, &pair, tally);
    }
}

#[test]
fn verdicts_on_full_size_games_agree() {
    let mut rng = Rng::new(4_093);
    let mut tally = Tally::default();
    compare_large(&mut rng, &most_nodes(), &mut tally);
    compare_large(&mut rng, &most_sets(), &mut tally);
    for round in 0..4 {
        let mut wide = Shape::full(&mut rng);
        let mut many_sets = Shape::crowded(&mut rng, 4_095);
        many_sets.nodes = 4_095;
        many_sets.merge_percent = 25 * round;
        if round == 3 {
            wide.payoffs = Payoffs::Constant(-32_768);
            wide.root_weight = 4_095;
        }
        for shape in [wide, many_sets] {
            let tables = random_game(&mut rng, &shape);
            compare_large(&mut rng, &tables, &mut tally);
        }
    }
    assert!(tally.deviations.iter().all(|&count| count > 3), "{tally:?}");
    assert!(tally.accepted > 3, "{tally:?}");
}

/// Full-size games with paths of 255 moves in a thread of 2 MiB.
#[test]
fn verdicts_on_deep_games_agree_in_a_small_stack() {
    let work = || {
        let mut rng = Rng::new(255);
        let mut tally = Tally::default();
        let in_turns = |level: usize| Player::BOTH[level % 2];
        compare_large(&mut rng, &comb(in_turns, 0), &mut tally);
        compare_large(&mut rng, &comb(|_| Player::One, 15), &mut tally);
        compare_large(&mut rng, &own_chain(255), &mut tally);
        for _ in 0..4 {
            let mut shape = Shape::deep(&mut rng);
            shape.nodes = 4_095;
            let tables = random_game(&mut rng, &shape);
            compare_large(&mut rng, &tables, &mut tally);
        }
        tally
    };
    let thread = thread::Builder::new().stack_size(STACK).spawn(work);
    let tally = thread.expect("a thread").join().expect("no overflow");
    assert!(tally.pairs >= 35, "{tally:?}");
}

#[test]
fn verdicts_on_named_games_agree() {
    let mut rng = Rng::new(5);
    let mut tally = Tally::default();
    let games = [
        study_game(),
        one_leaf([-1, 1]),
        wide_decision(64),
        wide_decision(1),
        wide_chance(64),
        most_sets(),
    ];
    for tables in games {
        compare_large(&mut rng, &tables, &mut tally);
    }
}

/// Document 01's plans: M, Q and the fourth are accepted, F is not.
#[test]
fn the_study_game_has_document_01s_verdicts() {
    let (file, _) = accepted(&study_game());
    let judged = |plan: PlanWeights, room: usize| {
        let plan = plan.bytes().expect("a plan that fits");
        let mut buffers = patterned(room);
        verdict(&file, &plan, &mut buffers).map(|()| buffers)
    };
    for (plan, base) in [(plan_m(), 9), (plan_q(), 1), (plan_r_against_thirds(), 3)] {
        let nothing = VerdictBuffers {
            player: 0,
            gain: 0,
            base,
            count: 0,
            moves: Vec::new(),
        };
        assert_eq!(judged(plan, 0), Ok(nothing));
    }
    let shown = VerdictBuffers {
        player: 1,
        gain: 1,
        base: 2,
        count: 2,
        moves: vec![0, 0],
    };
    assert_eq!(judged(plan_f(), 2), Ok(shown));
    assert_eq!(judged(plan_f(), 1), Err(18));
}

/// Compares with buffers of several lengths, and gives the refusal, or 0.
fn compare_files(file: &[u8], plan: &[u8]) -> usize {
    let game = check_game(file);
    let wanted = game.as_ref().map_err(|&refusal| refusal).and_then(|game| {
        let plan = check_plan(game, plan)?;
        Ok(expected::verdict(
            &plan,
            &reference::verdict::verdict(&plan),
        ))
    });
    compare_plain(file, plan, &wanted);
    for room in [0, 1, 5_000] {
        compare_room(file, plan, &wanted, room);
    }
    wanted.err().unwrap_or(0).into()
}

#[test]
fn refused_files_get_their_number_and_touch_nothing() {
    let mut rng = Rng::new(161);
    let mut met = [0; 17];
    for _ in 0..200 {
        let shape = Shape::random(&mut rng, 100, 10);
        let (file, game) = accepted(&random_game(&mut rng, &shape));
        let denominators = [random_count(&mut rng), random_count(&mut rng)];
        let pair = random_plan(&mut rng, &game, denominators);
        let bytes = pair.bytes().expect("a plan that fits");
        let plan = check_plan(&game, &bytes).expect("a plan that fits");
        for [game, plan] in damaged_pairs(&mut rng, &file, &plan, &bytes) {
            met[compare_files(&game, &plan)] += 1;
        }
    }
    assert!(met.iter().all(|&count| count > 40), "{met:?}");
}
