//! Sums that must agree in every game with every plan that fits.

use generator::games::random_game;
use generator::near::shift_one;
use generator::plans::{even_plan, random_plan};
use generator::rng::Rng;
use generator::shape::{random_count, Shape};
use generator::tables::{GameTables, Place};
use reference::form::{best_response, payoff_table, table_value_count, value_count};
use reference::game::{check_game, Leaf, Player};
use reference::plan::{check_plan, Plan};
use reference::verdict::{verdict, Verdict};

/// Small games, full-size ones and deep ones.
fn games(rng: &mut Rng) -> Vec<GameTables> {
    let mut shapes: Vec<Shape> = (0..600).map(|_| Shape::random(rng, 200, 64)).collect();
    shapes.extend((0..6).map(|_| Shape::full(rng)));
    shapes.extend((0..6).map(|_| Shape::deep(rng)));
    let made = shapes.iter().map(|shape| random_game(rng, shape));
    made.collect()
}

fn for_each_plan(seed: u64, check: impl Fn(&Plan)) {
    let mut rng = Rng::new(seed);
    for tables in games(&mut rng) {
        let game = check_game(&tables.bytes().unwrap()).unwrap();
        let denominators = [random_count(&mut rng), random_count(&mut rng)];
        let drawn = random_plan(&mut rng, &game, denominators);
        for pair in [drawn, even_plan(&game, denominators)] {
            let bytes = pair.bytes().unwrap();
            check(&check_plan(&game, &bytes).unwrap());
        }
    }
}

#[test]
fn the_flow_into_the_leaves_is_whole() {
    for_each_plan(81, |plan| {
        let flow = |leaf: &Leaf| {
            i128::from(leaf.weight)
                * i128::from(plan.weights(Player::One)[leaf.sequences[0]])
                * i128::from(plan.weights(Player::Two)[leaf.sequences[1]])
        };
        let sum: i128 = plan.game().leaves().iter().map(flow).sum();
        assert_eq!(sum, i128::from(plan.value_base()));
    });
}

#[test]
fn the_table_gives_the_value() {
    for_each_plan(82, |plan| {
        for player in Player::BOTH {
            assert_eq!(table_value_count(plan, player), value_count(plan, player));
        }
    });
}

#[test]
fn the_gain_is_the_best_value_less_the_value() {
    for_each_plan(83, |plan| {
        let gains = Player::BOTH.map(|player| {
            let own = i128::from(plan.denominator(player));
            best_response(plan, player).count() * own - value_count(plan, player)
        });
        assert!(gains.iter().all(|&gain| gain >= 0));
        match verdict(plan) {
            Verdict::Accepted => assert_eq!(gains, [0, 0]),
            Verdict::Deviation(shown) => {
                assert_eq!(shown.gain, gains[shown.player.index()]);
                assert!(shown.gain > 0);
                assert!(shown.player == Player::One || gains[0] == 0);
                let sets: Vec<usize> = shown.moves.iter().map(|choice| choice.set).collect();
                assert_eq!(sets, plan.game().sets_of(shown.player));
            }
        }
    });
}

#[test]
fn table_rows_are_sorted_and_cover_the_leaves() {
    let mut rng = Rng::new(84);
    for tables in games(&mut rng) {
        let game = check_game(&tables.bytes().unwrap()).unwrap();
        let rows = payoff_table(&game);
        assert!(rows.is_sorted_by(|one, next| one.sequences < next.sequences));
        let known = |sequences| rows.binary_search_by_key(&sequences, |row| row.sequences);
        let leaves = game.leaves();
        assert!(leaves.iter().all(|leaf| known(leaf.sequences).is_ok()));
        for player in [0, 1] {
            let from_rows: i128 = rows.iter().map(|row| row.sums[player]).sum();
            let term = |leaf: &Leaf| i128::from(leaf.weight) * i128::from(leaf.payoffs[player]);
            let from_leaves: i128 = leaves.iter().map(term).sum();
            assert_eq!(from_rows, from_leaves);
        }
    }
}

/// A row stands for its leaves even where the sums come to nothing.
#[test]
fn rows_with_zero_sums_are_kept() {
    let mut tables = GameTables::new(2);
    tables.add_chance(tables.root(), 2);
    tables.add_leaf(Place::new(0, 0, 1), [5, 0]);
    tables.add_leaf(Place::new(0, 1, 1), [-5, 0]);
    let game = check_game(&tables.bytes().unwrap()).unwrap();
    let rows = payoff_table(&game);
    assert_eq!(rows.len(), 1);
    assert_eq!((rows[0].sequences, rows[0].sums), ([0, 0], [0, 0]));
}

#[test]
fn shifting_one_unit_keeps_a_plan_fitting() {
    let mut rng = Rng::new(85);
    for tables in games(&mut rng) {
        let game = check_game(&tables.bytes().unwrap()).unwrap();
        let bytes = random_plan(&mut rng, &game, [40, 4_095]).bytes().unwrap();
        let plan = check_plan(&game, &bytes).unwrap();
        for player in Player::BOTH {
            if let Some(shifted) = shift_one(&mut rng, &plan, player) {
                let other = shifted.bytes().unwrap();
                assert_ne!(other, bytes);
                assert!(check_plan(&game, &other).is_ok());
            }
        }
    }
}
