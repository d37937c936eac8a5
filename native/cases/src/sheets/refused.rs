//! Sheets made for one refusal each, 19 to 21, and refused games with a sheet.

use super::{odds_case, sheet_case, sheet_of_odds, Case};
use crate::choices::{after_the_other, choices};
use crate::game::all_cases;
use generator::named::{backward, one_leaf, plan_m, row_of_sets, study_game, wide_decision};
use reference::game::Player;
use reference::Refusal;

/// The odds of plan M, whose sheet has 9 bytes.
const M: [u64; 6] = [1, 0, 1, 2, 1, 2];

pub fn cases() -> Result<Vec<Case>, Refusal> {
    let mut cases = refused_games()?;
    cases.extend(wrong_lengths()?);
    cases.extend(wrong_filling()?);
    cases.extend(no_odds()?);
    cases.extend(large_denominators()?);
    Ok(cases)
}

/// 1 to 13: the first game made for each, with plan M's sheet.
fn refused_games() -> Result<Vec<Case>, Refusal> {
    let sheet = sheet_of_odds(&study_game().bytes()?, &M)?;
    let games = all_cases()?;
    let first = |refusal| games.iter().find(|case| case.refusal == refusal);
    let cases = (1..=13).filter_map(first);
    let case = |game: &crate::game::Case| {
        sheet_case(game.refusal, "refused-game", &game.file, sheet.clone())
    };
    Ok(cases.map(case).collect())
}

/// 19, by the length: that of plan M's sheet is 9, that of three moves 5, that of one leaf 0.
fn wrong_lengths() -> Result<Vec<Case>, Refusal> {
    let study = study_game().bytes()?;
    let m = sheet_of_odds(&study, &M)?;
    let three = wide_decision(3).bytes()?;
    let odds = sheet_of_odds(&three, &[1, 1, 2])?;
    let leaf = one_leaf([-1, 1]).bytes()?;
    let resized = |sheet: &[u8], length| {
        let mut sheet = sheet.to_vec();
        sheet.resize(length, 0);
        sheet
    };
    Ok(vec![
        sheet_case(19, "empty", &study, Vec::new()),
        sheet_case(19, "one-byte-less", &study, resized(&m, 8)),
        sheet_case(19, "one-byte-more", &study, resized(&m, 10)),
        sheet_case(19, "two-bytes-a-move", &study, resized(&m, 12)),
        sheet_case(19, "plan-m-in-its-place", &study, plan_m().bytes()?),
        sheet_case(19, "not-filled", &three, resized(&odds, 4)),
        sheet_case(19, "filled-twice", &three, resized(&odds, 6)),
        sheet_case(19, "one-leaf-one-byte", &leaf, vec![0]),
        sheet_case(
            19,
            "one-leaf-header-of-a-plan",
            &leaf,
            vec![0x10, 0x01, 0x00, 0x10],
        ),
    ])
}

/// 19, in the four bits after an odd number of odds.
fn wrong_filling() -> Result<Vec<Case>, Refusal> {
    let three = wide_decision(3).bytes()?;
    let sheet = sheet_of_odds(&three, &[1, 1, 2])?;
    let case = |title, bit: u8| {
        let mut sheet = sheet.clone();
        sheet[4] |= bit;
        sheet_case(19, title, &three, sheet)
    };
    Ok(vec![
        case("first-filling-bit", 8),
        case("second-filling-bit", 4),
        case("third-filling-bit", 2),
        case("last-filling-bit", 1),
    ])
}

fn study(refusal: Refusal, title: &'static str, odds: [u64; 6]) -> Result<Case, Refusal> {
    odds_case(refusal, title, &study_game(), &odds)
}

/// 20. In the last one player 1's set lies behind a move that player 2's odds rule out.
fn no_odds() -> Result<Vec<Case>, Refusal> {
    Ok(vec![
        study(20, "first-set", [0, 0, 1, 1, 1, 0])?,
        study(20, "late-set", [1, 1, 0, 0, 1, 0])?,
        study(20, "late-set-alone-arrived-at", [4_095, 0, 0, 0, 1, 0])?,
        study(20, "set-of-player-2", [0, 1, 0, 0, 0, 0])?,
        study(20, "all-odds-zero", [0; 6])?,
        odds_case(20, "one-move", &wide_decision(1), &[0])?,
        odds_case(20, "set-after-a-later-one", &backward(), &[0, 0, 1, 1])?,
        odds_case(20, "later-set-before-it", &backward(), &[1, 1, 0, 0])?,
        odds_case(
            20,
            "behind-the-other",
            &after_the_other(),
            &[0, 0, 1, 0, 1, 0],
        )?,
    ])
}

/// 21: D of 4,096 and more, by one set, by sets one after the other and by sets that are not.
fn large_denominators() -> Result<Vec<Case>, Refusal> {
    let row = |sets| row_of_sets(Player::One, sets);
    let of_two = row_of_sets(Player::Two, 255);
    let pair = choices(&[0, 0], &[0, 0]);
    Ok(vec![
        study(21, "d1-4096", [1, 4_095, 1, 0, 1, 0])?,
        study(21, "d2-4096", [1, 0, 1, 0, 4_095, 1])?,
        study(21, "d1-64-times-64", [1, 63, 1, 63, 1, 0])?,
        study(21, "d1-17-times-241", [1, 16, 1, 240, 1, 0])?,
        study(21, "d1-a-prime", [4, 4_095, 1, 0, 1, 0])?,
        study(21, "both-players", [1, 4_095, 1, 0, 4_095, 1])?,
        odds_case(21, "set-alone-of-player-2", &pair, &[1, 1, 2, 4_095])?,
        odds_case(
            21,
            "two-first-sets",
            &after_the_other(),
            &[1, 63, 1, 64, 1, 0],
        )?,
        odds_case(21, "12-sets-in-a-row", &row(12), &[1; 24])?,
        odds_case(21, "255-sets-in-a-row", &row(255), &[1; 510])?,
        odds_case(21, "255-sets-of-player-2", &of_two, &[4_095; 510])?,
        odds_case(21, "64-moves", &wide_decision(64), &sum_4096())?,
    ])
}

/// The odds 1 to 63, and one that brings their sum to 4,096.
fn sum_4096() -> Vec<u64> {
    let mut odds: Vec<u64> = (1..=63).collect();
    odds.push(4_096 - odds.iter().sum::<u64>());
    odds
}
