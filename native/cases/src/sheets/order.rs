//! Sheets that break two rules with neighbouring numbers.

use super::{sheet_case, sheet_of_odds, Case};
use generator::named::{set_below_itself, study_game, wide_decision};
use reference::Refusal;

pub struct Pair {
    /// The game and the sheet that break the rule after the lower one, and none before.
    pub upper: (Vec<u8>, Vec<u8>),
    /// Breaks the lower rule too.
    pub both: Case,
}

pub fn pairs() -> Result<Vec<Pair>, Refusal> {
    let study = study_game().bytes()?;
    let mut pairs = vec![
        wrong_length_of_a_refused_game(&study)?,
        no_odds_in_a_wrong_length(&study),
        no_odds_with_filling()?,
    ];
    let of_odds = [
        (
            "before-21-of-player-1",
            [1, 4_095, 1, 0, 1, 0],
            [1, 4_095, 1, 0, 0, 0],
        ),
        (
            "before-21-of-player-2",
            [0, 1, 0, 0, 1, 4_095],
            [0, 0, 0, 0, 1, 4_095],
        ),
        (
            "before-21-of-the-same",
            [1, 4_095, 1, 0, 1, 0],
            [1, 4_095, 0, 0, 1, 0],
        ),
    ];
    for (title, upper, both) in of_odds {
        let upper = sheet_of_odds(&study, &upper)?;
        let both = sheet_of_odds(&study, &both)?;
        pairs.push(pair(20, title, (&study, upper), (&study, both)));
    }
    Ok(pairs)
}

fn wrong_length_of_a_refused_game(study: &[u8]) -> Result<Pair, Refusal> {
    let forgetful = set_below_itself().bytes()?;
    let long = vec![0; 10];
    let (upper, both) = ((study, long.clone()), (&forgetful[..], long));
    Ok(pair(13, "before-19", upper, both))
}

fn no_odds_in_a_wrong_length(study: &[u8]) -> Pair {
    let (upper, both) = ((study, vec![0; 9]), (study, vec![0; 10]));
    pair(19, "before-20", upper, both)
}

fn no_odds_with_filling() -> Result<Pair, Refusal> {
    let three = wide_decision(3).bytes()?;
    let upper = vec![0; 5];
    let both = vec![0, 0, 0, 0, 1];
    let title = "before-20-by-filling";
    Ok(pair(19, title, (&three, upper), (&three, both)))
}

fn pair(
    lower: Refusal,
    title: &'static str,
    upper: (&[u8], Vec<u8>),
    both: (&[u8], Vec<u8>),
) -> Pair {
    Pair {
        upper: (upper.0.to_vec(), upper.1),
        both: sheet_case(lower, title, both.0, both.1),
    }
}
