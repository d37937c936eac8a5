//! Refusals 14 to 16, each by files made for it.

use generator::edit::*;
use generator::named::{one_leaf, plan_m, study_game, wide_decision};
use generator::tables::PlanWeights;
use reference::game::{check_game, Game};
use reference::plan::{check_plan, plan_length};

fn study() -> Game {
    check_game(&study_game().bytes().unwrap()).unwrap()
}

fn m_file() -> Vec<u8> {
    plan_m().bytes().unwrap()
}

/// The refusal of plan M with one field changed.
fn m_refusal(field: Field, value: u64) -> u8 {
    let mut file = m_file();
    put_bits(&mut file, field, value);
    check_plan(&study(), &file).unwrap_err()
}

#[test]
fn another_length_gets_14() {
    let game = study();
    let file = m_file();
    assert_eq!(plan_length(&game), file.len());
    for length in 0..file.len() {
        assert_eq!(check_plan(&game, &file[..length]), Err(14));
    }
    assert_eq!(check_plan(&game, &[&file[..], &[0]].concat()), Err(14));
}

#[test]
fn another_edition_gets_15() {
    for edition in (0..16).filter(|&edition| edition != 1) {
        assert_eq!(m_refusal(EDITION, edition), 15);
    }
}

#[test]
fn a_denominator_of_zero_gets_15() {
    assert_eq!(m_refusal(D1, 0), 15);
    assert_eq!(m_refusal(D2, 0), 15);
}

#[test]
fn every_header_zero_bit_gets_15() {
    for place in 0..4 {
        assert_eq!(m_refusal(PLAN_ZEROS, 1 << place), 15);
    }
}

#[test]
fn every_filling_bit_gets_15() {
    let game = check_game(&wide_decision(3).bytes().unwrap()).unwrap();
    let pair = PlanWeights {
        weights: [vec![4, 1, 1, 2], vec![1]],
    };
    let file = pair.bytes().unwrap();
    assert_eq!(file.len(), 9);
    assert!(check_plan(&game, &file).is_ok());
    for place in 0..4 {
        let mut damaged = file.clone();
        damaged[8] |= 1 << place;
        assert_eq!(check_plan(&game, &damaged), Err(15));
    }
}

#[test]
fn every_weight_off_by_one_gets_16() {
    let file = m_file();
    for place in 0..6 {
        let weight = get_bits(&file, plan_weight(place));
        assert_eq!(m_refusal(plan_weight(place), weight + 1), 16);
    }
}

#[test]
fn another_denominator_gets_16() {
    assert_eq!(m_refusal(D1, 4), 16);
    assert_eq!(m_refusal(D2, 2), 16);
}

#[test]
fn a_sum_is_not_cut_to_twelve_bits() {
    let game = check_game(&wide_decision(2).bytes().unwrap()).unwrap();
    let pair = PlanWeights {
        weights: [vec![1, 4_095, 2], vec![1]],
    };
    assert_eq!(check_plan(&game, &pair.bytes().unwrap()), Err(16));
}

#[test]
fn without_sets_any_denominators_fit() {
    let game = check_game(&one_leaf([0, 0]).bytes().unwrap()).unwrap();
    for d1 in [1, 4_095] {
        let pair = PlanWeights {
            weights: [vec![d1], vec![7]],
        };
        assert!(check_plan(&game, &pair.bytes().unwrap()).is_ok());
    }
    assert_eq!(check_plan(&game, &[0x10, 0x01, 0x00, 0x11]), Err(15));
}
