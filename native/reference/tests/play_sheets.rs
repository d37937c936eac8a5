//! Play sheets worked by hand: the plans made of them, the sheets made of plans, and refusals 19
//! to 21.

use generator::edit::{changed, plan_weight, EDITION};
use generator::named::{
    backward, one_leaf, plan_f, plan_m, plan_q, row_of_sets, set_below_itself, study_game,
    wide_decision,
};
use generator::tables::{GameTables, Place, PlanWeights, SheetOdds};
use reference::deliver;
use reference::game::{check_game, Player};
use reference::limits::LARGEST;
use reference::plan::{check_plan, plan_length};
use reference::sheet::{
    check_sheet, is_over_smallest, plan_from_sheet, sheet_bytes, sheet_from_plan, sheet_length,
    WIDTH,
};
use reference::Refusal;

/// Plan M, and its sheet.
const M_FILE: [u8; 13] = [
    0x10, 0x03, 0x00, 0x30, 0x00, 0x30, 0x00, 0x00, 0x10, 0x02, 0x00, 0x10, 0x02,
];
const M_SHEET: [u8; 9] = [0x00, 0x10, 0x00, 0x00, 0x10, 0x02, 0x00, 0x10, 0x02];

/// D1, D2 and the weights in file order of the plan made of these odds in plan order.
fn plan_of(tables: &GameTables, odds: &[u64]) -> Result<(u64, u64, Vec<u64>), Refusal> {
    let game = check_game(&tables.bytes()?)?;
    let sheet = SheetOdds::in_plan_order(&game, odds).bytes(&game)?;
    let file = plan_from_sheet(&tables.bytes()?, &sheet, WIDTH, LARGEST)?;
    let plan = check_plan(&game, &file).expect("a plan that fits");
    let [d1, d2] = Player::BOTH.map(|player| plan.denominator(player));
    Ok((d1, d2, plan.weights_in_file_order()))
}

fn study(odds: [u64; 6]) -> Result<(u64, u64, Vec<u64>), Refusal> {
    plan_of(&study_game(), &odds)
}

fn study_refusal(odds: [u64; 6]) -> Refusal {
    study(odds).err().unwrap_or(0)
}

/// The odds in plan order of the sheet made of a plan of the study game.
fn sheet_of(plan: &PlanWeights) -> Vec<u64> {
    let game = study_game().bytes().unwrap();
    let sheet = sheet_from_plan(&game, &plan.bytes().unwrap(), WIDTH).unwrap();
    let game = check_game(&game).unwrap();
    let sheet = check_sheet(&game, &sheet, WIDTH).unwrap();
    [0, 2, 1].map(|set| sheet.odds()[set].clone()).concat()
}

fn weights(one: &[u64], two: &[u64]) -> PlanWeights {
    PlanWeights {
        weights: [one.to_vec(), two.to_vec()],
    }
}

#[test]
fn plan_m_gives_the_given_bytes_and_comes_back() {
    let game = study_game().bytes().unwrap();
    assert_eq!(plan_m().bytes().unwrap(), M_FILE);
    assert_eq!(sheet_from_plan(&game, &M_FILE, WIDTH), Ok(M_SHEET.to_vec()));
    assert_eq!(sheet_of(&plan_m()), [1, 0, 1, 2, 1, 2]);
    assert_eq!(
        plan_from_sheet(&game, &M_SHEET, WIDTH, LARGEST),
        Ok(M_FILE.to_vec())
    );
}

#[test]
fn a_set_that_the_plan_never_arrives_at_has_zeros() {
    assert_eq!(sheet_of(&plan_f()), [0, 1, 0, 0, 1, 1]);
    assert_eq!(sheet_of(&plan_q()), [0, 1, 0, 0, 1, 0]);
}

#[test]
fn a_sheet_has_no_header_and_is_filled_to_a_byte() {
    let lengths = [1, 2, 3, 64].map(|moves| {
        let game = check_game(&wide_decision(moves).bytes().unwrap()).unwrap();
        (sheet_length(&game, 12), sheet_length(&game, 16))
    });
    assert_eq!(lengths, [(2, 2), (3, 4), (5, 6), (96, 128)]);
}

#[test]
fn d_is_the_smallest_of_each_player_by_himself() {
    let made = study([1, 2, 1, 4, 3, 6]);
    assert_eq!(made, Ok((15, 3, vec![5, 10, 1, 4, 1, 2])));
    let game = study_game().bytes().unwrap();
    let sheet = [0x00, 0x10, 0x02, 0x00, 0x10, 0x04, 0x00, 0x30, 0x06];
    let plan = vec![
        0x10, 0x0f, 0x00, 0x30, 0x00, 0x50, 0x0a, 0x00, 0x10, 0x04, 0x00, 0x10, 0x02,
    ];
    let lowest = [0x00, 0x10, 0x02, 0x00, 0x10, 0x04, 0x00, 0x10, 0x02];
    assert_eq!(
        plan_from_sheet(&game, &sheet, WIDTH, LARGEST),
        Ok(plan.clone())
    );
    assert_eq!(sheet_from_plan(&game, &plan, WIDTH), Ok(lowest.to_vec()));
}

/// 2 2 is 1 of 2, and 1/2 × 2/3 is 1/3; 6/10 × 5/6 is 1/2.
#[test]
fn fractions_are_brought_to_lowest_terms() {
    assert_eq!(
        study([2, 2, 2, 1, 1, 0]),
        Ok((6, 1, vec![3, 3, 2, 1, 1, 0]))
    );
    assert_eq!(
        study([6, 4, 5, 1, 1, 0]),
        Ok((10, 1, vec![6, 4, 5, 1, 1, 0]))
    );
}

#[test]
fn odds_where_the_player_never_arrives_do_not_matter() {
    let q = Ok((1, 1, vec![0, 1, 0, 0, 1, 0]));
    for late in [[5, 8], [0, 0], [0, 4_095], [4_095, 4_094]] {
        assert_eq!(study([0, 7, late[0], late[1], 4, 0]), q);
    }
}

#[test]
fn all_odds_zero_at_a_set_that_is_arrived_at_get_20() {
    assert_eq!(study_refusal([1, 1, 0, 0, 1, 0]), 20);
    assert_eq!(study_refusal([0, 1, 0, 0, 1, 0]), 0);
    assert_eq!(study_refusal([0, 0, 1, 1, 1, 0]), 20);
    assert_eq!(study_refusal([0, 1, 1, 1, 0, 0]), 20);
    assert_eq!(study_refusal([0; 6]), 20);
}

/// Player 1's only set lies behind a move that player 2's odds rule out.
#[test]
fn only_the_own_sequence_says_who_arrives() {
    let mut tables = GameTables::new(2);
    let first = tables.add_set(Player::Two, 2);
    let second = tables.add_set(Player::One, 2);
    let root = tables.add_decision(tables.root(), first);
    let node = tables.add_decision(Place::new(root, 1, 2), second);
    for place in [(root, 0), (node, 0), (node, 1)] {
        tables.add_leaf(Place::new(place.0, place.1, 2), [0, 0]);
    }
    assert_eq!(plan_of(&tables, &[0, 0, 1, 0]), Err(20));
    assert_eq!(
        plan_of(&tables, &[1, 3, 1, 0]),
        Ok((4, 1, vec![1, 3, 1, 0]))
    );
}

#[test]
fn d_up_to_4095_serves_and_4096_does_not() {
    assert_eq!(study_refusal([1, 4_095, 1, 0, 1, 0]), 21);
    assert_eq!(
        study([1, 4_094, 1, 0, 1, 0]),
        Ok((4_095, 1, vec![1, 4_094, 1, 0, 1, 0]))
    );
    assert_eq!(study_refusal([1, 0, 1, 0, 1, 4_095]), 21);
    assert_eq!(
        study([1, 0, 1, 0, 1, 4_094]),
        Ok((1, 4_095, vec![1, 0, 1, 0, 1, 4_094]))
    );
    // 63 × 65 is 4,095 and 64 × 64 is 4,096.
    assert_eq!(
        study([1, 62, 1, 64, 1, 0]),
        Ok((4_095, 1, vec![65, 4_030, 1, 64, 1, 0]))
    );
    assert_eq!(study_refusal([1, 63, 1, 63, 1, 0]), 21);
}

#[test]
fn odds_of_any_size_are_taken_where_a_small_d_serves() {
    assert_eq!(
        study([4_095, 4_095, 4_095, 0, 0, 4_095]),
        Ok((2, 1, vec![1, 1, 1, 0, 0, 1]))
    );
}

#[test]
fn sixty_four_odds_of_4095_each_are_even() {
    let made = plan_of(&wide_decision(64), &[4_095; 64]);
    assert_eq!(made, Ok((64, 1, vec![1; 64])));
}

/// Set 0 comes after move 0 of set 1: 3 and 3 of 6, and 1 and 2 of the first 3.
#[test]
fn a_set_may_follow_a_set_of_larger_number() {
    assert_eq!(
        plan_of(&backward(), &[1, 2, 1, 1]),
        Ok((6, 1, vec![1, 2, 3, 3]))
    );
}

/// The smallest D of so many sets is 2 to that power: 2,048 for 11, 4,096 for 12.
#[test]
fn odds_even_at_255_sets_in_a_row_get_21() {
    for player in Player::BOTH {
        assert_eq!(plan_of(&row_of_sets(player, 255), &[1; 510]), Err(21));
        let made = plan_of(&row_of_sets(player, 11), &[1; 22]).unwrap();
        assert_eq!(made.0.max(made.1), 2_048);
        assert_eq!(plan_of(&row_of_sets(player, 12), &[1; 24]), Err(21));
    }
}

#[test]
fn a_game_without_sets_has_a_sheet_without_bytes() {
    let game = one_leaf([-1, 1]).bytes().unwrap();
    let plan = [0x10, 0x01, 0x00, 0x10];
    assert_eq!(
        plan_from_sheet(&game, &[], WIDTH, LARGEST),
        Ok(plan.to_vec())
    );
    assert_eq!(plan_from_sheet(&game, &[0], WIDTH, LARGEST), Err(19));
    assert_eq!(sheet_from_plan(&game, &plan, WIDTH), Ok(Vec::new()));
    // D1 = 4,095 and D2 = 7 are not the smallest.
    let wide = weights(&[4_095], &[7]).bytes().unwrap();
    assert_eq!(sheet_from_plan(&game, &wide, WIDTH), Ok(Vec::new()));
}

#[test]
fn another_length_gets_19() {
    let game = study_game().bytes().unwrap();
    let lengths = (0..=27).filter(|&length| length != 9);
    for length in lengths {
        let mut sheet = M_SHEET.to_vec();
        sheet.resize(length, 0);
        assert_eq!(plan_from_sheet(&game, &sheet, WIDTH, LARGEST), Err(19));
    }
    assert_eq!(plan_from_sheet(&game, &M_FILE, WIDTH, LARGEST), Err(19));
}

#[test]
fn every_filling_bit_gets_19() {
    let game = wide_decision(3).bytes().unwrap();
    let sheet = [0x00, 0x10, 0x01, 0x00, 0x20];
    let plan = weights(&[4, 1, 1, 2], &[1]).bytes();
    assert_eq!(plan_from_sheet(&game, &sheet, WIDTH, LARGEST), plan);
    for bit in 0..4 {
        let mut damaged = sheet;
        damaged[4] |= 1 << bit;
        assert_eq!(plan_from_sheet(&game, &damaged, WIDTH, LARGEST), Err(19));
    }
    let mut odds = sheet;
    odds[4] |= 1 << 4;
    let plan = weights(&[5, 1, 1, 3], &[1]).bytes();
    assert_eq!(plan_from_sheet(&game, &odds, WIDTH, LARGEST), plan);
}

#[test]
fn the_refusals_of_a_sheet_come_in_order() {
    let study = study_game().bytes().unwrap();
    let refused = set_below_itself().bytes().unwrap();
    let made = |game: &[u8], sheet: &[u8]| plan_from_sheet(game, sheet, WIDTH, LARGEST);
    assert_eq!(made(&refused, &[1]), Err(13));
    assert_eq!(made(&[], &[]), Err(1));
    // One byte too many, and no odds at all.
    assert_eq!(made(&study, &[0; 10]), Err(19));
    assert_eq!(made(&study, &[0; 9]), Err(20));
    // Player 1's D is 4,096 at least; player 2 has no odds.
    assert_eq!(study_refusal([1, 4_095, 1, 0, 0, 0]), 20);
    assert_eq!(study_refusal([1, 4_095, 0, 0, 1, 0]), 20);
    assert_eq!(study_refusal([0, 0, 0, 0, 1, 4_095]), 20);
    // 21 of either player, with a buffer of no byte.
    for odds in [[1, 4_095, 1, 0, 1, 0], [1, 0, 1, 0, 1, 4_095]] {
        let made = study_file(odds).and_then(|file| deliver(&file, &mut []));
        assert_eq!(made, Err(21));
    }
}

fn study_file(odds: [u64; 6]) -> Result<Vec<u8>, Refusal> {
    let file = study_game().bytes()?;
    let game = check_game(&file)?;
    let sheet = SheetOdds::in_plan_order(&game, &odds).bytes(&game)?;
    plan_from_sheet(&file, &sheet, WIDTH, LARGEST)
}

#[test]
fn a_result_is_delivered_whole_or_not_at_all() {
    let game = study_game().bytes().unwrap();
    let plan = plan_from_sheet(&game, &M_SHEET, WIDTH, LARGEST).unwrap();
    let sheet = sheet_from_plan(&game, &M_FILE, WIDTH).unwrap();
    for (file, room) in [(plan, 13), (sheet, 9)] {
        let mut short = vec![0xa5; room - 1];
        assert_eq!(deliver(&file, &mut short), Err(18));
        assert_eq!(short, vec![0xa5; room - 1]);
        let mut longer = vec![0xa5; room + 2];
        assert_eq!(deliver(&file, &mut longer), Ok(room));
        assert_eq!(longer, [&file[..], &[0xa5; 2]].concat());
    }
}

#[test]
fn a_sheet_is_made_of_a_plan_that_fits_alone() {
    let study = study_game().bytes().unwrap();
    let refused = set_below_itself().bytes().unwrap();
    let made = |game: &[u8], plan: &[u8]| sheet_from_plan(game, plan, WIDTH);
    assert_eq!(made(&[], &M_FILE), Err(1));
    assert_eq!(made(&refused, &M_FILE), Err(13));
    assert_eq!(made(&study, &M_FILE[..12]), Err(14));
    assert_eq!(made(&study, &M_SHEET), Err(14));
    assert_eq!(made(&study, &changed(&M_FILE, EDITION, 2)), Err(15));
    assert_eq!(made(&study, &changed(&M_FILE, plan_weight(0), 2)), Err(16));
}

/// Plan M with D1 or D2 or both larger than need be.
#[test]
fn a_plan_comes_back_over_the_smallest_d() {
    let game = study_game();
    let game_file = game.bytes().unwrap();
    let game = check_game(&game_file).unwrap();
    for (pair, over) in [
        (plan_m(), [true, true]),
        (weights(&[3, 3, 0, 1, 2], &[6, 2, 4]), [true, false]),
        (weights(&[6, 6, 0, 2, 4], &[9, 3, 6]), [false, false]),
        (plan_m().scaled([1_365, 1]), [false, true]),
    ] {
        let file = pair.bytes().unwrap();
        let plan = check_plan(&game, &file).unwrap();
        assert_eq!(
            Player::BOTH.map(|player| is_over_smallest(&plan, player)),
            over
        );
        let sheet = sheet_from_plan(&game_file, &file, WIDTH).unwrap();
        assert_eq!(sheet, M_SHEET);
        let back = plan_from_sheet(&game_file, &sheet, WIDTH, LARGEST).unwrap();
        assert_eq!(back, M_FILE);
        assert_eq!(back == file, over == [true, true]);
    }
}

/// D1 and all weights of player 1 have the divisor 2, the moves of his last set have 4.
#[test]
fn a_sets_weights_are_divided_by_their_own_divisor() {
    let pair = weights(&[10, 4, 6, 4, 0], &[5, 5, 0]);
    assert_eq!(sheet_of(&pair), [2, 3, 1, 0, 1, 0]);
}

/// With 16 bits a move and D up to 65,535, as for plans of another edition.
#[test]
fn width_and_limit_are_parameters() {
    let game_file = study_game().bytes().unwrap();
    let game = check_game(&game_file).unwrap();
    let sheet = |odds: [u64; 6], width| {
        let odds = SheetOdds::in_plan_order(&game, &odds);
        sheet_bytes(&game, &odds.by_set, width)
    };
    let wide = sheet([1, 2, 1, 4, 3, 6], 16);
    assert_eq!(wide, [0, 1, 0, 2, 0, 1, 0, 4, 0, 3, 0, 6]);
    let checked = check_sheet(&game, &wide, 16).unwrap();
    assert_eq!(
        checked.smallest_weights(Player::One, 65_535),
        Ok(vec![15, 5, 10, 1, 4])
    );
    assert_eq!(check_sheet(&game, &wide, 12), Err(19));
    // Odds above 4,095, and D of 65,535 and of 65,536.
    for (odds, made) in [
        ([1, 65_534, 1, 0, 1, 0], Ok(65_535)),
        ([1, 65_535, 1, 0, 1, 0], Err(21)),
        ([1, 4_095, 1, 0, 1, 0], Ok(4_096)),
    ] {
        let wide = sheet(odds, 16);
        let checked = check_sheet(&game, &wide, 16).unwrap();
        let weights = checked.smallest_weights(Player::One, 65_535);
        assert_eq!(weights.map(|weights| weights[0]), made);
    }
    // The smallest D is tried against the limit alone.
    let checked = sheet([1, 2, 1, 4, 3, 6], 12);
    let checked = check_sheet(&game, &checked, 12).unwrap();
    for (limit, served) in [(14, false), (15, true), (16, true)] {
        let made = checked.smallest_weights(Player::One, limit);
        assert_eq!(made.is_ok(), served);
    }
    assert_eq!(checked.plan_file(14), Err(21));
    assert_eq!(checked.plan_file(15).unwrap().len(), plan_length(&game));
}
