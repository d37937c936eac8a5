//! Plan files made for one refusal each, 14 to 16, and refused games with a plan.

use super::accepted::chance_plan;
use super::{made_for, plan_of, Case};
use crate::game::{accepted::chance_game, all_cases};
use generator::edit::{changed, plan_weight, D1, D2, EDITION, PLAN_ZEROS};
use generator::large::most_sets;
use generator::named::{one_leaf, plan_m, plan_q, study_game, wide_decision};
use generator::plans::even_plan;
use reference::game::check_game;
use reference::Refusal;

pub fn cases() -> Result<Vec<Case>, Refusal> {
    let mut cases = refused_games()?;
    cases.extend(wrong_lengths()?);
    cases.extend(wrong_headers()?);
    cases.extend(wrong_filling()?);
    cases.extend(wrong_sums()?);
    cases.extend(wrong_modulo_4096()?);
    cases.extend(wrong_leading_weights()?);
    Ok(cases)
}

/// 1 to 13: the first game made for each, with plan M.
fn refused_games() -> Result<Vec<Case>, Refusal> {
    let plan = plan_m().bytes()?;
    let games = all_cases()?;
    let first = |refusal| games.iter().find(|case| case.refusal == refusal);
    let cases = (1..=13).filter_map(first).map(|game| Case {
        refusal: game.refusal,
        title: "refused-game",
        game: game.file.clone(),
        plan: plan.clone(),
    });
    Ok(cases.collect())
}

/// The file cut or filled with zeros to a length.
fn resized(file: &[u8], length: usize) -> Vec<u8> {
    let mut file = file.to_vec();
    file.resize(length, 0);
    file
}

/// 14. Plan M has 13 bytes, a plan of one leaf 4, one of three moves 9.
fn wrong_lengths() -> Result<Vec<Case>, Refusal> {
    let m = plan_m().bytes()?;
    let leaf = plan_of(&[1], &[1])?;
    let three = plan_of(&[4, 1, 1, 2], &[5])?;
    let study = [
        ("empty", resized(&m, 0)),
        ("three-bytes", resized(&m, 3)),
        ("header-alone", resized(&m, 4)),
        ("one-byte-less", resized(&m, 12)),
        ("one-byte-more", resized(&m, 14)),
        ("two-bytes-a-move", resized(&m, 16)),
        ("plan-of-one-leaf", leaf.clone()),
    ];
    let of_leaf = [
        ("one-leaf-one-byte-less", resized(&leaf, 3)),
        ("one-leaf-one-byte-more", resized(&leaf, 5)),
        ("plan-of-study-game", m),
    ];
    let of_three = [
        ("not-filled", resized(&three, 8)),
        ("filled-twice", resized(&three, 10)),
    ];
    let mut cases = made_for(14, &study_game().bytes()?, study);
    cases.extend(made_for(14, &one_leaf([-1, 1]).bytes()?, of_leaf));
    cases.extend(made_for(14, &wide_decision(3).bytes()?, of_three));
    Ok(cases)
}

/// 15, in the header. A player whose weights are all 0 fits, but for his D.
fn wrong_headers() -> Result<Vec<Case>, Refusal> {
    let m = plan_m().bytes()?;
    let leaf = plan_of(&[1], &[1])?;
    let study = [
        ("edition-0", changed(&m, EDITION, 0)),
        ("edition-2", changed(&m, EDITION, 2)),
        ("edition-9", changed(&m, EDITION, 9)),
        ("first-header-zero-bit", changed(&m, PLAN_ZEROS, 8)),
        ("second-header-zero-bit", changed(&m, PLAN_ZEROS, 4)),
        ("third-header-zero-bit", changed(&m, PLAN_ZEROS, 2)),
        ("last-header-zero-bit", changed(&m, PLAN_ZEROS, 1)),
        ("d1-zero", plan_of(&[0; 5], &[3, 1, 2])?),
        ("d2-zero", plan_of(&[3, 3, 0, 1, 2], &[0; 3])?),
        ("all-bytes-zero", vec![0; 13]),
    ];
    let of_leaf = [
        ("one-leaf-d1-zero", changed(&leaf, D1, 0)),
        ("one-leaf-d2-zero", changed(&leaf, D2, 0)),
        ("one-leaf-edition-0", changed(&leaf, EDITION, 0)),
    ];
    let mut cases = made_for(15, &study_game().bytes()?, study);
    cases.extend(made_for(15, &one_leaf([-1, 1]).bytes()?, of_leaf));
    Ok(cases)
}

/// 15, in the four bits after an odd number of weights.
fn wrong_filling() -> Result<Vec<Case>, Refusal> {
    let three = plan_of(&[4, 1, 1, 2], &[5])?;
    let with_bit = |bit: u8| {
        let mut file = three.clone();
        file[8] |= bit;
        file
    };
    let plans = [
        ("first-filling-bit", with_bit(8)),
        ("second-filling-bit", with_bit(4)),
        ("third-filling-bit", with_bit(2)),
        ("last-filling-bit", with_bit(1)),
    ];
    Ok(made_for(15, &wide_decision(3).bytes()?, plans))
}

/// 16: sums that are off by one.
fn wrong_sums() -> Result<Vec<Case>, Refusal> {
    let m = plan_m().bytes()?;
    let study = [
        ("first-set-one-less", changed(&m, plan_weight(0), 2)),
        ("first-set-one-more", changed(&m, plan_weight(1), 1)),
        ("last-set-one-more", changed(&m, plan_weight(3), 3)),
        ("player-2-one-less", changed(&m, plan_weight(5), 1)),
        ("d1-one-more", changed(&m, D1, 4)),
        ("d2-one-less", changed(&m, D2, 2)),
        ("all-weights-zero", plan_of(&[3, 0, 0, 0, 0], &[3, 0, 0])?),
        ("sum-of-all-right", plan_of(&[3, 2, 0, 2, 2], &[3, 1, 2])?),
    ];
    let large = most_sets().bytes()?;
    let plan = even_plan(&check_game(&large)?, [4_095, 4_094]).bytes()?;
    let last = [(
        "last-of-4077-sets",
        changed(&plan, plan_weight(4_076), 4_093),
    )];
    let mut cases = made_for(16, &study_game().bytes()?, study);
    cases.extend(made_for(16, &large, last));
    Ok(cases)
}

/// 16: sums that are right but for 4,096, 8,192 or 65,536.
fn wrong_modulo_4096() -> Result<Vec<Case>, Refusal> {
    let mut many = [0; 65];
    many[0] = 1;
    many[1..17].fill(4_095);
    many[17] = 17;
    let many = [("modulo-65536", plan_of(&many, &[1])?)];
    let two = [("modulo-4096", plan_of(&[1, 4_095, 2], &[1])?)];
    let three = [("modulo-8192", plan_of(&[4_093, 4_095, 4_095, 4_095], &[1])?)];
    let study = [
        (
            "modulo-4096-last-set",
            plan_of(&[3, 3, 0, 4_095, 4], &[3, 1, 2])?,
        ),
        (
            "modulo-4096-player-2",
            plan_of(&[3, 3, 0, 1, 2], &[3, 4, 4_095])?,
        ),
        (
            "modulo-4096-after-weight-0",
            plan_of(&[1, 0, 1, 4_095, 1], &[1, 1, 0])?,
        ),
    ];
    let mut cases = made_for(16, &wide_decision(2).bytes()?, two);
    cases.extend(made_for(16, &wide_decision(3).bytes()?, three));
    cases.extend(made_for(16, &wide_decision(64).bytes()?, many));
    cases.extend(made_for(16, &study_game().bytes()?, study));
    Ok(cases)
}

/// 16: sums that are right for another sequence than the one that leads to the set.
fn wrong_leading_weights() -> Result<Vec<Case>, Refusal> {
    let study = [
        (
            "moves-after-weight-0",
            changed(&plan_q().bytes()?, plan_weight(2), 1),
        ),
        ("other-move-leads", plan_of(&[3, 1, 2, 1, 1], &[3, 1, 2])?),
        ("d1-for-last-set", plan_of(&[3, 2, 1, 1, 2], &[3, 1, 2])?),
        (
            "weights-of-player-2-first",
            plan_of(&[3, 1, 2, 3, 0], &[3, 1, 2])?,
        ),
    ];
    let mut by_d2 = chance_plan();
    by_d2.weights[1] = vec![7, 3, 4, 5, 2];
    let mut by_number = chance_plan();
    by_number.weights[1] = vec![7, 4, 3, 2, 2];
    let chance = [
        ("d2-for-a-set-after-a-later-one", by_d2.bytes()?),
        ("sets-taken-in-order-of-number", by_number.bytes()?),
    ];
    let mut cases = made_for(16, &study_game().bytes()?, study);
    cases.extend(made_for(16, &chance_game().bytes()?, chance));
    Ok(cases)
}
