//! The largest games that pass, and the first ones that do not.

use generator::games::random_game;
use generator::named::{long_path, own_chain, wide_chance, wide_decision};
use generator::plans::random_plan;
use generator::rng::Rng;
use generator::shape::{Growth, Payoffs, Shape};
use generator::slow::{slow_game, slow_games_of_full_size, Slow};
use generator::tables::{GameTables, Place, PlanWeights};
use reference::form::{best_response, value_count};
use reference::game::{check_game, Player};
use reference::plan::check_plan;
use reference::verdict::{verdict, Verdict};

fn checked(tables: &GameTables) -> Result<(), u8> {
    check_game(&tables.bytes()?).map(|_| ())
}

#[test]
fn sixty_four_moves_pass_and_65_do_not() {
    assert_eq!(checked(&wide_decision(64)), Ok(()));
    assert_eq!(checked(&wide_chance(64)), Ok(()));
    let mut decision = wide_decision(64);
    decision.fields.set_moves[0] = 65;
    assert_eq!(checked(&decision), Err(5));
    let mut chance = wide_chance(64);
    chance.fields.chance_moves[0] = 65;
    assert_eq!(checked(&chance), Err(7));
}

#[test]
fn a_path_of_255_moves_passes_and_256_do_not() {
    assert_eq!(checked(&long_path(255)), Ok(()));
    assert_eq!(checked(&long_path(256)), Err(11));
}

#[test]
fn an_own_sequence_may_have_255_moves() {
    assert_eq!(checked(&own_chain(256)), Err(11));
    let game = check_game(&own_chain(255).bytes().unwrap()).unwrap();
    assert_eq!(game.own_sequence(Player::Two, 255).unwrap().len(), 255);
    assert_eq!(game.own_sequence(Player::One, 255), Ok(Vec::new()));
    assert_eq!(game.node_sequence_number(Player::Two, 255), Ok(1));
    assert_eq!(game.leading_sequence_number(0), Ok(2));
    assert_eq!(game.leading_sequence_number(254), Ok(0));
}

#[test]
fn games_of_4095_nodes_pass() {
    let mut rng = Rng::new(61);
    for _ in 0..10 {
        let shape = Shape::full(&mut rng);
        let tables = random_game(&mut rng, &shape);
        assert_eq!(tables.fields.kinds.len(), 4_095);
        assert_eq!(checked(&tables), Ok(()));
    }
}

#[test]
fn one_node_more_than_4095_gets_17() {
    let mut tables = random_game(&mut Rng::new(62), &Shape::full(&mut Rng::new(62)));
    tables.add_leaf(Place::new(0, 0, 1), [0, 0]);
    assert_eq!(tables.bytes(), Err(17));
}

#[test]
fn deep_games_pass_and_reach_255_moves() {
    let mut rng = Rng::new(63);
    for _ in 0..10 {
        let shape = Shape::deep(&mut rng);
        let tables = random_game(&mut rng, &shape);
        assert_eq!(longest_path(&tables), 255);
        assert_eq!(checked(&tables), Ok(()));
    }
}

/// The most moves from the root to a node.
fn longest_path(tables: &GameTables) -> usize {
    let parents = &tables.fields.parents;
    let mut depths = vec![0; parents.len()];
    for node in 1..parents.len() {
        depths[node] = depths[parents[node] as usize] + 1;
    }
    depths.into_iter().max().unwrap_or(0)
}

#[test]
fn slow_games_of_full_size_pass() {
    let games = slow_games_of_full_size();
    let (_, first) = &games[0];
    assert_eq!(first.fields.kinds.len(), 4_094);
    assert_eq!(first.fields.players.len(), 0);
    assert_eq!(longest_path(first), 255);
    for (name, tables) in games {
        assert_eq!(checked(&tables), Ok(()), "{name}");
        assert!(tables.fields.kinds.len() > 4_060, "{name}");
        assert!(longest_path(&tables) > 120, "{name}");
    }
}

#[test]
fn slow_games_of_any_size_pass() {
    let mut rng = Rng::new(65);
    let mut reached = 0;
    for round in 0..2_000 {
        let most_nodes = if round % 50 == 0 {
            4_095
        } else {
            1 + round % 300
        };
        let slow = Slow::random(&mut rng, most_nodes);
        let tables = slow_game(&mut rng, &slow);
        assert_eq!(checked(&tables), Ok(()), "{slow:?}");
        assert!(tables.fields.kinds.len() <= most_nodes, "{slow:?}");
        reached += usize::from(longest_path(&tables) == 255);
    }
    assert!(reached > 10, "{reached}");
}

/// Every number at its largest: 4,095 for D0, D1 and D2 and -32,768 or 32,767
/// at every leaf.
#[test]
fn sums_stay_exact_at_the_extremes() {
    for payoff in [-32_768, 32_767] {
        let mut rng = Rng::new(64);
        let shape = Shape {
            payoffs: Payoffs::Constant(payoff),
            root_weight: 4_095,
            chance_percent: 20,
            growth: Growth::Scattered,
            most_moves: 8,
            ..Shape::full(&mut rng)
        };
        let file = random_game(&mut rng, &shape).bytes().unwrap();
        let game = check_game(&file).unwrap();
        let pair = random_plan(&mut rng, &game, [4_095, 4_095]);
        let bytes = pair.bytes().unwrap();
        let plan = check_plan(&game, &bytes).unwrap();
        for player in Player::BOTH {
            let (whole, payoff) = (4_095_i128, i128::from(payoff));
            let value = whole * whole * whole * payoff;
            assert_eq!(value_count(&plan, player), value);
            assert_eq!(best_response(&plan, player).count(), whole * whole * payoff);
        }
        assert_eq!(verdict(&plan), Verdict::Accepted);
    }
}

#[test]
fn a_gain_of_one_count_is_a_gain() {
    let mut tables = GameTables::new(4_095);
    tables.add_chance(tables.root(), 2);
    tables.add_leaf(Place::new(0, 0, 4_094), [32_767, -32_768]);
    let set = tables.add_set(Player::Two, 2);
    let choice = tables.add_decision(Place::new(0, 1, 1), set);
    tables.add_leaf(Place::new(choice, 0, 1), [0, 1]);
    tables.add_leaf(Place::new(choice, 1, 1), [0, 0]);
    let game = check_game(&tables.bytes().unwrap()).unwrap();
    let judged = |first, second| {
        let pair = PlanWeights {
            weights: [vec![1], vec![4_095, first, second]],
        };
        verdict(&check_plan(&game, &pair.bytes().unwrap()).unwrap())
    };
    assert_eq!(judged(4_095, 0), Verdict::Accepted);
    let Verdict::Deviation(shown) = judged(4_094, 1) else {
        panic!("a pair passed in error");
    };
    assert_eq!((shown.player, shown.gain), (Player::Two, 1));
}
