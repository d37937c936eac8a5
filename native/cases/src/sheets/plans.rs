//! Plans that sheets are made from: those of `try_plan` that fit, some over more than the smallest
//! D, and some for each refusal.

use super::{Case, Made};
use crate::choices::weights;
use crate::plan::{self, fitting};
use generator::named::study_game;
use reference::Refusal;

pub fn cases() -> Result<Vec<Case>, Refusal> {
    let mut cases = plan::accepted::cases()?;
    cases.extend(multiples()?);
    cases.extend(plan::refused_by_each()?);
    cases.extend(plan::pairs()?.into_iter().map(|pair| pair.both));
    let case = |case: plan::Case| Case {
        made: Made::Sheet,
        refusal: case.refusal,
        title: case.title,
        game: case.game,
        given: case.plan,
    };
    Ok(cases.into_iter().map(case).collect())
}

/// Plan M with D2 or with both D larger than need be, and a set whose weights have a divisor that
/// the plan has not.
fn multiples() -> Result<Vec<plan::Case>, Refusal> {
    let study = study_game();
    Ok(vec![
        fitting("d2-twice", &study, &weights(&[3, 3, 0, 1, 2], &[6, 2, 4]))?,
        fitting(
            "d1-twice-d2-three-times",
            &study,
            &weights(&[6, 6, 0, 2, 4], &[9, 3, 6]),
        )?,
        fitting(
            "divisor-of-one-set",
            &study,
            &weights(&[10, 4, 6, 4, 0], &[5, 2, 3]),
        )?,
    ])
}
