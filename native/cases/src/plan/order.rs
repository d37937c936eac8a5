//! Files that break two rules with neighbouring numbers.

use super::{plan_of, Case};
use generator::edit::{changed, plan_weight, Field, D1, EDITION};
use generator::named::{plan_m, set_below_itself, study_game, wide_decision};
use reference::Refusal;

pub struct Pair {
    /// The game and the plan that break the rule after the lower one, and none before.
    pub upper: (Vec<u8>, Vec<u8>),
    /// Breaks the lower rule too.
    pub both: Case,
}

pub fn pairs() -> Result<Vec<Pair>, Refusal> {
    let study = study_game().bytes()?;
    let m = plan_m().bytes()?;
    Ok(vec![
        short_plan_of_a_refused_game(&study, &m)?,
        short_plan_of_another_edition(&study, &m),
        misfit("before-16", &study, &m, (EDITION, 2)),
        misfit("before-16-by-d1", &study, &m, (D1, 0)),
        misfit_with_filling()?,
    ])
}

fn short_plan_of_a_refused_game(study: &[u8], m: &[u8]) -> Result<Pair, Refusal> {
    let forgetful = set_below_itself().bytes()?;
    let short = &m[..12];
    Ok(pair(13, "before-14", (study, short), (&forgetful, short)))
}

fn short_plan_of_another_edition(study: &[u8], m: &[u8]) -> Pair {
    let edition = changed(m, EDITION, 2);
    let short = &edition[..12];
    pair(14, "before-15", (study, &edition), (study, short))
}

/// Plan M with another weight, then with another header field too.
fn misfit(title: &'static str, study: &[u8], m: &[u8], (field, value): (Field, u64)) -> Pair {
    let misfit = changed(m, plan_weight(0), 2);
    let both = changed(&misfit, field, value);
    pair(15, title, (study, &misfit), (study, &both))
}

fn misfit_with_filling() -> Result<Pair, Refusal> {
    let three = wide_decision(3).bytes()?;
    let misfit = plan_of(&[4, 1, 1, 1], &[5])?;
    let mut both = misfit.clone();
    both[8] |= 1;
    let title = "before-16-by-filling";
    Ok(pair(15, title, (&three, &misfit), (&three, &both)))
}

fn pair(lower: Refusal, title: &'static str, upper: (&[u8], &[u8]), both: (&[u8], &[u8])) -> Pair {
    Pair {
        upper: (upper.0.to_vec(), upper.1.to_vec()),
        both: Case {
            refusal: lower,
            title,
            game: both.0.to_vec(),
            plan: both.1.to_vec(),
        },
    }
}
