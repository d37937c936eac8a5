//! The calls that are measured, as each implementation makes them.

use crate::form::{TableBuffers, Values};
use crate::plain::expert::{self, Scratch};
use crate::plain::{self, BitLoop, Reader, Word};
use crate::verdict::VerdictBuffers;
use crate::{Counts, Output, PlanBuffers, Refusal};
use std::marker::PhantomData;

type Answer = Result<(), Refusal>;

/// An implementation of the calls.
pub trait Variant {
    fn check_game(&mut self, game: &[u8]) -> Result<Counts, Refusal>;
    fn plan_fields(&mut self, game: &[u8], plan: &[u8], out: &mut PlanBuffers) -> Answer;
    fn payoff_table(&mut self, game: &[u8], out: &mut TableBuffers) -> Answer;
    fn values(&mut self, game: &[u8], plan: &[u8], out: &mut Values) -> Answer;
    fn verdict(&mut self, game: &[u8], plan: &[u8], out: &mut VerdictBuffers) -> Answer;
    fn tolerates(&mut self, game: &[u8], plan: &[u8], tolerance: u16, out: &mut u64) -> Answer;
    fn plan_from_sheet(&mut self, game: &[u8], sheet: &[u8], out: &mut Output) -> Answer;
    fn sheet_from_plan(&mut self, game: &[u8], plan: &[u8], out: &mut Output) -> Answer;
}

/// How many there are.
pub const COUNT: usize = 4;

/// What they are called.
pub const NAMES: [&str; COUNT] = ["library", "same", "words", "expert"];

/// The proved library, plain Rust by the same method, the same with fields read by words, and
/// plain Rust by a free choice of method.
pub fn all() -> [Box<dyn Variant>; COUNT] {
    [
        Box::new(Library),
        Box::new(SameMethod(PhantomData::<BitLoop>)),
        Box::new(SameMethod(PhantomData::<Word>)),
        Box::new(Expert(Scratch::new())),
    ]
}

/// The one with this name.
pub fn named(name: &str) -> Option<Box<dyn Variant>> {
    let mut named = NAMES.into_iter().zip(all());
    named.find_map(|(own, variant)| (own == name).then_some(variant))
}

struct Library;

impl Variant for Library {
    fn check_game(&mut self, game: &[u8]) -> Result<Counts, Refusal> {
        crate::check_game(game)
    }

    fn plan_fields(&mut self, game: &[u8], plan: &[u8], out: &mut PlanBuffers) -> Answer {
        crate::plan_fields(game, plan, out)
    }

    fn payoff_table(&mut self, game: &[u8], out: &mut TableBuffers) -> Answer {
        crate::form::payoff_table(game, out)
    }

    fn values(&mut self, game: &[u8], plan: &[u8], out: &mut Values) -> Answer {
        crate::form::values(game, plan, out)
    }

    fn verdict(&mut self, game: &[u8], plan: &[u8], out: &mut VerdictBuffers) -> Answer {
        crate::verdict::verdict(game, plan, out)
    }

    fn tolerates(&mut self, game: &[u8], plan: &[u8], tolerance: u16, out: &mut u64) -> Answer {
        crate::tolerance::tolerates(game, plan, tolerance, out)
    }

    fn plan_from_sheet(&mut self, game: &[u8], sheet: &[u8], out: &mut Output) -> Answer {
        crate::sheet::plan_from_sheet(game, sheet, out)
    }

    fn sheet_from_plan(&mut self, game: &[u8], plan: &[u8], out: &mut Output) -> Answer {
        crate::sheet::sheet_from_plan(game, plan, out)
    }
}

struct SameMethod<R>(PhantomData<R>);

impl<R: Reader> Variant for SameMethod<R> {
    fn check_game(&mut self, game: &[u8]) -> Result<Counts, Refusal> {
        plain::check_game::<R>(game)
    }

    fn plan_fields(&mut self, game: &[u8], plan: &[u8], out: &mut PlanBuffers) -> Answer {
        plain::plan::plan_fields::<R>(game, plan, out)
    }

    fn payoff_table(&mut self, game: &[u8], out: &mut TableBuffers) -> Answer {
        plain::table::payoff_table::<R>(game, out)
    }

    fn values(&mut self, game: &[u8], plan: &[u8], out: &mut Values) -> Answer {
        plain::form::values::<R>(game, plan, out)
    }

    fn verdict(&mut self, game: &[u8], plan: &[u8], out: &mut VerdictBuffers) -> Answer {
        plain::verdict::verdict::<R>(game, plan, out)
    }

    fn tolerates(&mut self, game: &[u8], plan: &[u8], tolerance: u16, out: &mut u64) -> Answer {
        plain::tolerance::tolerates::<R>(game, plan, tolerance, out)
    }

    fn plan_from_sheet(&mut self, game: &[u8], sheet: &[u8], out: &mut Output) -> Answer {
        plain::sheet::plan_from_sheet::<R>(game, sheet, out)
    }

    fn sheet_from_plan(&mut self, game: &[u8], plan: &[u8], out: &mut Output) -> Answer {
        plain::sheet::sheet_from_plan::<R>(game, plan, out)
    }
}

struct Expert(Box<Scratch>);

impl Variant for Expert {
    fn check_game(&mut self, game: &[u8]) -> Result<Counts, Refusal> {
        expert::check_game(game, &mut self.0)
    }

    fn plan_fields(&mut self, game: &[u8], plan: &[u8], out: &mut PlanBuffers) -> Answer {
        expert::plan_fields(game, plan, &mut self.0, out)
    }

    fn payoff_table(&mut self, game: &[u8], out: &mut TableBuffers) -> Answer {
        expert::payoff_table(game, &mut self.0, out)
    }

    fn values(&mut self, game: &[u8], plan: &[u8], out: &mut Values) -> Answer {
        expert::values(game, plan, &mut self.0, out)
    }

    fn verdict(&mut self, game: &[u8], plan: &[u8], out: &mut VerdictBuffers) -> Answer {
        expert::verdict(game, plan, &mut self.0, out)
    }

    fn tolerates(&mut self, game: &[u8], plan: &[u8], tolerance: u16, out: &mut u64) -> Answer {
        expert::tolerates(game, plan, tolerance, &mut self.0, out)
    }

    fn plan_from_sheet(&mut self, game: &[u8], sheet: &[u8], out: &mut Output) -> Answer {
        expert::plan_from_sheet(game, sheet, &mut self.0, out)
    }

    fn sheet_from_plan(&mut self, game: &[u8], plan: &[u8], out: &mut Output) -> Answer {
        expert::sheet_from_plan(game, plan, &mut self.0, out)
    }
}
