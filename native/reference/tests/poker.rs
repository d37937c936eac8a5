//! Kuhn poker with its known equilibria, and Leduc poker with the counts of
//! document 004.

use generator::near::{averaged_best_responses, shift_one};
use generator::plans::even_plan;
use generator::poker::{kuhn, kuhn_equilibrium, leduc};
use generator::rng::Rng;
use reference::form::{best_response, value_count};
use reference::game::{check_game, Game, Kind, Player};
use reference::plan::{check_plan, Plan};
use reference::report::report;
use reference::verdict::{verdict, Verdict};

/// Chance nodes, leaves, decisions per player, sets and sequences likewise.
type Counts = [usize; 8];

fn counts(game: &Game) -> Counts {
    let kinds = game.nodes().iter().map(|node| node.kind);
    let chance = kinds.filter(|kind| matches!(kind, Kind::Chance { .. }));
    let decisions = Player::BOTH.map(|player| decisions_of(game, player));
    let sets = Player::BOTH.map(|player| game.sets_of(player).len());
    let sequences = Player::BOTH.map(|player| game.sequence_count(player));
    [
        chance.count(),
        game.leaves().len(),
        decisions[0],
        decisions[1],
        sets[0],
        sets[1],
        sequences[0],
        sequences[1],
    ]
}

fn decisions_of(game: &Game, player: Player) -> usize {
    let own = |kind: Kind| match kind {
        Kind::Decision { set } => game.sets()[set].player == player,
        _ => false,
    };
    game.nodes().iter().filter(|node| own(node.kind)).count()
}

fn kuhn_game() -> Game {
    check_game(&kuhn().bytes().unwrap()).unwrap()
}

fn leduc_game() -> Game {
    check_game(&leduc().bytes().unwrap()).unwrap()
}

fn assert_zero_sum(plan: &Plan) {
    let values = Player::BOTH.map(|player| value_count(plan, player));
    assert_eq!(values[0], -values[1]);
    let [best_1, best_2] = Player::BOTH.map(|player| {
        let own = i128::from(plan.denominator(player));
        best_response(plan, player).count() * own
    });
    assert!(best_1 >= values[0] && best_2 >= values[1]);
}

#[test]
fn kuhn_poker_has_the_published_counts() {
    let game = kuhn_game();
    assert_eq!(game.nodes().len(), 55);
    assert_eq!(counts(&game), [1, 30, 12, 12, 6, 6, 13, 13]);
}

#[test]
fn the_family_of_kuhn_equilibria_is_accepted() {
    let game = kuhn_game();
    for thirds in [1_u64, 2, 5, 9, 1_365] {
        for bluffs in (0..=thirds).step_by(thirds.div_ceil(9) as usize) {
            let bytes = kuhn_equilibrium(thirds, bluffs).bytes().unwrap();
            let plan = check_plan(&game, &bytes).unwrap();
            assert_eq!(verdict(&plan), Verdict::Accepted);
            let base = 6 * 3 * i128::from(plan.denominator(Player::One));
            assert_eq!(value_count(&plan, Player::One) * 18, -base);
            assert_eq!(value_count(&plan, Player::Two) * 18, base);
        }
    }
}

#[test]
fn the_kuhn_listing_is_exact() {
    let plan = kuhn_equilibrium(2, 1).bytes().unwrap();
    let expected =
        "value 1 -6 of 108\nvalue 2 6 of 108\nbest 1 -6 of 108\nbest 2 6 of 108\naccepted\n";
    assert_eq!(report(&kuhn().bytes().unwrap(), &plan), expected);
}

/// Against each equilibrium plan of one player the other's value is the same,
/// so a unit shifted by player 2 can only help player 1 in his best response.
#[test]
fn kuhn_pairs_off_by_one_unit_are_judged() {
    let game = kuhn_game();
    let mut rng = Rng::new(101);
    let mut refused = 0;
    for _ in 0..500 {
        let scaled = kuhn_equilibrium(400, 150).scaled([1, 1_000]);
        let bytes = scaled.bytes().unwrap();
        let plan = check_plan(&game, &bytes).unwrap();
        let player = Player::BOTH[rng.below(2)];
        let shifted = shift_one(&mut rng, &plan, player).unwrap().bytes().unwrap();
        let plan = check_plan(&game, &shifted).unwrap();
        assert_zero_sum(&plan);
        refused += usize::from(verdict(&plan) != Verdict::Accepted);
    }
    assert!(refused > 250);
}

#[test]
fn leduc_poker_has_the_published_counts() {
    let game = leduc_game();
    assert_eq!(game.nodes().len(), 1_936);
    assert_eq!(counts(&game), [46, 1_116, 387, 387, 144, 144, 337, 337]);
    assert_eq!(game.root_weight(), 120);
}

#[test]
fn leduc_payoffs_are_whole_stakes() {
    for leaf in leduc_game().leaves() {
        assert_eq!(leaf.payoffs[0], -leaf.payoffs[1]);
        assert!([0, 1, 3, 5, 7, 9, 11, 13].contains(&leaf.payoffs[0].abs()));
    }
}

#[test]
fn leduc_best_responses_come_near_the_known_value() {
    let game = leduc_game();
    let bytes = even_plan(&game, [144, 144]).bytes().unwrap();
    let even = check_plan(&game, &bytes).unwrap();
    assert_zero_sum(&even);
    assert_ne!(verdict(&even), Verdict::Accepted);
    let bytes = averaged_best_responses(&game, 600)
        .unwrap()
        .bytes()
        .unwrap();
    let plan = check_plan(&game, &bytes).unwrap();
    assert_zero_sum(&plan);
    let base = 120.0 * plan.denominator(Player::Two) as f64;
    let [most, least] =
        Player::BOTH.map(|player| best_response(&plan, player).count() as f64 / base);
    assert!(-least < -0.085 && -0.085 < most);
    assert!(most + least < 0.5);
}
