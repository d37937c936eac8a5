//! Where several rules are broken at once, the lowest number is given.

use generator::aim::{aim_at_game, aim_at_plan};
use generator::edit::*;
use generator::games::random_game;
use generator::named::{long_path, plan_m, set_below_itself, study_game};
use generator::plans::random_plan;
use generator::rng::Rng;
use generator::shape::Shape;
use generator::tables::{GameTables, PlanWeights};
use reference::game::{check_game, Player};
use reference::plan::check_plan;
use reference::report::report;
use reference::writer::{write_game, write_plan};

fn refusal(file: &[u8]) -> u8 {
    check_game(file).err().unwrap_or(0)
}

/// A node that satisfies `wanted`, given its kind and number.
fn find_node(file: &[u8], wanted: impl Fn(u64, usize) -> bool) -> Option<usize> {
    let sets = get_bits(file, SETS) as usize;
    let nodes = get_bits(file, NODES) as usize;
    let mut numbers = (0..nodes).rev();
    numbers.find(|&node| wanted(get_bits(file, node_field(sets, node, KIND)), node))
}

/// Breaks one of rules 1 to 10 in a file that keeps the rules up to it, or
/// gives nothing where the file has no place for that.
fn with_broken_rule(file: &[u8], rule: u8) -> Option<Vec<u8>> {
    let mut broken = file.to_vec();
    let sets = get_bits(file, SETS) as usize;
    let decision = find_node(file, |kind, _| kind == 1);
    let set_of = |node| get_bits(file, node_field(sets, node, DECISION_SET)) as usize;
    let (field, value) = match rule {
        1 => return Some(file[..4].to_vec()),
        2 => (EDITION, 2),
        3 => (ROOT_WEIGHT, 0),
        4 => return Some([file, &[0]].concat()),
        5 => (set_moves(sets.checked_sub(1)?), 65),
        6 => {
            let last = find_node(file, |_, _| true)?;
            (node_field(sets, last, KIND), 3)
        }
        7 => (node_field(sets, decision?, DECISION_SET), 4_095),
        8 => {
            let last = find_node(file, |_, node| node > 0)?;
            (node_field(sets, last, PARENT), last as u64)
        }
        9 => {
            let field = set_moves(set_of(decision?));
            let moves = get_bits(file, field);
            (field, (moves < 64).then_some(moves + 1)?)
        }
        10 => {
            let last = find_node(file, |_, _| true)?;
            (node_field(sets, last, WEIGHT), 0)
        }
        _ => return None,
    };
    put_bits(&mut broken, field, value);
    Some(broken)
}

#[test]
fn of_any_two_broken_rules_of_a_game_the_lower_is_given() {
    let mut rng = Rng::new(41);
    let mut met = [[0; 14]; 14];
    for _ in 0..300 {
        let shape = Shape::random(&mut rng, 60, 6);
        let file = random_game(&mut rng, &shape).bytes().unwrap();
        let game = check_game(&file).unwrap();
        for upper in 2..=13 {
            let Some(damaged) = aim_at_game(&mut rng, &game, upper) else {
                continue;
            };
            assert_eq!(refusal(&damaged), upper);
            for lower in 1..upper {
                if let Some(both) = with_broken_rule(&damaged, lower) {
                    assert_eq!(refusal(&both), lower, "{lower} before {upper}");
                    met[lower as usize][upper as usize] += 1;
                }
            }
        }
    }
    for (lower, counts) in met.iter().enumerate().take(11).skip(1) {
        assert!(
            counts[lower + 1..].iter().all(|&count| count > 0),
            "{lower}"
        );
    }
}

/// The rule named first is broken late in the file, the other one early.
#[test]
fn an_earlier_place_does_not_outrank_an_earlier_rule() {
    let file = study_game().bytes().unwrap();
    let node = |number, within| node_field(3, number, within);
    let pairs = [
        (5, set_moves(2), 0, node(0, KIND), 3),
        (6, node(8, KIND), 3, node(0, DECISION_SET), 3),
        (6, node(4, DECISION_ZEROS), 1, node(0, PARENT), 1),
        (7, node(4, DECISION_SET), 3, node(0, PARENT), 1),
        (8, node(8, MOVE), 2, node(2, MOVE), 0),
        (9, node(8, MOVE), 0, node(0, WEIGHT), 0),
    ];
    for (number, late, late_value, early, early_value) in pairs {
        let mut damaged = file.clone();
        put_bits(&mut damaged, early, early_value);
        assert!(refusal(&damaged) > number);
        put_bits(&mut damaged, late, late_value);
        assert_eq!(refusal(&damaged), number);
    }
}

#[test]
fn a_weight_comes_before_a_long_path() {
    let mut tables = long_path(256);
    assert_eq!(refusal(&tables.bytes().unwrap()), 11);
    tables.fields.weights[256] = 2;
    assert_eq!(refusal(&tables.bytes().unwrap()), 10);
}

#[test]
fn a_long_path_comes_before_an_unmet_set() {
    let mut tables = long_path(255);
    tables.add_set(Player::One, 1);
    assert_eq!(refusal(&tables.bytes().unwrap()), 12);
    let mut tables = long_path(256);
    tables.add_set(Player::One, 1);
    assert_eq!(refusal(&tables.bytes().unwrap()), 11);
}

#[test]
fn an_unmet_set_comes_before_perfect_recall() {
    let mut tables = set_below_itself();
    assert_eq!(refusal(&tables.bytes().unwrap()), 13);
    tables.add_set(Player::Two, 1);
    assert_eq!(refusal(&tables.bytes().unwrap()), 12);
}

#[test]
fn the_game_comes_before_the_plan() {
    let game = set_below_itself().bytes().unwrap();
    assert_eq!(report(&game, &[]), "refusal 13\n");
    assert_eq!(report(&[], &[]), "refusal 1\n");
    let study = study_game().bytes().unwrap();
    assert_eq!(report(&study, &[]), "refusal 14\n");
}

#[test]
fn of_two_broken_rules_of_a_plan_the_lower_is_given() {
    let mut rng = Rng::new(42);
    for _ in 0..300 {
        let shape = Shape::random(&mut rng, 40, 5);
        let file = random_game(&mut rng, &shape).bytes().unwrap();
        let game = check_game(&file).unwrap();
        let pair = random_plan(&mut rng, &game, [12, 4_095]);
        let bytes = pair.bytes().unwrap();
        let plan = check_plan(&game, &bytes).unwrap();
        for upper in [15, 16] {
            let Some(damaged) = aim_at_plan(&mut rng, &plan, upper) else {
                continue;
            };
            assert_eq!(check_plan(&game, &damaged), Err(upper));
            let longer = [&damaged[..], &[0]].concat();
            assert_eq!(check_plan(&game, &longer), Err(14));
            let mut other_edition = damaged.clone();
            put_bits(&mut other_edition, EDITION, 2);
            assert_eq!(check_plan(&game, &other_edition), Err(15));
        }
    }
}

#[test]
fn a_field_comes_before_the_buffer() {
    let mut tables: GameTables = study_game();
    let mut short = [0xaa; 79];
    assert_eq!(write_game(1, &tables.fields, &mut short), Err(18));
    tables.fields.moves[8] = 64;
    assert_eq!(write_game(1, &tables.fields, &mut short), Err(17));
    let pair: PlanWeights = plan_m();
    assert_eq!(write_plan(3, 3, &pair.weights[1], &mut [0; 4]), Err(18));
    assert_eq!(write_plan(3, 4_096, &pair.weights[1], &mut [0; 4]), Err(17));
    assert_eq!(short, [0xaa; 79]);
}
