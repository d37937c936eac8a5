//! Pairs whose gains lie at and around whole numbers of thousandths, beside those of the verdict.

use crate::choices::{choices, weights};
use crate::plan::{fitting, Case};
use crate::report::amounts::below_a_thousandth;
use generator::named::{one_choice, pair_a, pair_b, pair_c, plan_f, study_game};
use reference::Refusal;

pub fn cases() -> Result<Vec<Case>, Refusal> {
    let mut cases = study_cases()?;
    cases.extend(whole_thousandths()?);
    cases.extend(below_a_thousandth()?);
    cases.push(both_gain()?);
    cases.extend(largest_tolerance()?);
    Ok(cases)
}

/// Gains of 9, 3 and 12, and 18 of 27, and plan F with D1 and D2 as large as can be.
fn study_cases() -> Result<Vec<Case>, Refusal> {
    let study = study_game();
    let large_f = plan_f().scaled([4_095, 2_047]);
    Ok(vec![
        fitting("study-game-pair-a", &study, &pair_a())?,
        fitting("study-game-pair-b", &study, &pair_b())?,
        fitting("study-game-pair-c", &study, &pair_c())?,
        fitting("study-game-f-4095", &study, &large_f)?,
    ])
}

/// Player 1's choice between two payoffs, with these weights. He gains the weight of the worse
/// move × what lies between the payoffs, over D1.
fn choice(title: &'static str, payoffs: [i64; 2], own: [u64; 3]) -> Result<Case, Refusal> {
    fitting(title, &one_choice(payoffs), &weights(&own, &[1]))
}

/// Gains at a whole number of thousandths, just below it and just above.
fn whole_thousandths() -> Result<Vec<Case>, Refusal> {
    Ok(vec![
        choice("gain-of-1-of-1001", [1, 0], [1_001, 1_000, 1])?,
        choice("gain-of-1-of-1000", [1, 0], [1_000, 999, 1])?,
        choice("gain-of-1-of-999", [1, 0], [999, 998, 1])?,
        choice("gain-of-3-of-4000", [1, 0], [4_000, 3_997, 3])?,
        choice("gain-of-4-of-4000", [1, 0], [4_000, 3_996, 4])?,
        choice("gain-of-5-of-4000", [1, 0], [4_000, 3_995, 5])?,
        choice("gain-of-1-of-8", [1, 0], [8, 7, 1])?,
        choice("gain-of-4094-of-4095", [0, 4_094], [4_095, 1, 4_094])?,
        choice("gain-of-1-of-1", [0, 1], [1, 1, 0])?,
        choice("gain-of-4096-of-4095", [0, 4_096], [4_095, 1, 4_094])?,
    ])
}

/// Player 1 gains a third, player 2 669 of 2,000.
fn both_gain() -> Result<Case, Refusal> {
    fitting(
        "player-2-gains-a-little-more",
        &choices(&[0, 2], &[0, 2]),
        &weights(&[3, 1, 2], &[2_000, 669, 1_331]),
    )
}

/// Gains around 65,535 thousandths, and one of 65,535 points. As a number of 16 bits 65,536 would
/// be 0.
fn largest_tolerance() -> Result<Vec<Case>, Refusal> {
    let (low, high) = (-32_768, 32_767);
    Ok(vec![
        choice(
            "gain-just-below-65535-thousandths",
            [0, 17_891],
            [4_095, 15, 4_080],
        )?,
        choice("gain-of-65535-thousandths", [low, high], [1_000, 1, 999])?,
        fitting(
            "gain-of-65535-thousandths-by-player-2",
            &choices(&[0], &[low, high]),
            &weights(&[1, 1], &[500, 1, 499]),
        )?,
        choice(
            "gain-just-above-65535-thousandths",
            [0, 19_169],
            [4_095, 14, 4_081],
        )?,
        choice("gain-of-65536-thousandths", [low, 0], [1_000, 2, 998])?,
        choice("gain-of-65535-points", [low, high], [1, 1, 0])?,
    ])
}
