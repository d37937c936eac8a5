//! The pairs under `examples/`: each in a folder of its own with what the desk program prints
//! there, by the reference implementation.

use generator::named::{plan_f, plan_m, plan_q, study_game};
use generator::near::averaged_best_responses;
use generator::poker::{
    kuhn, kuhn_equilibrium, kuhn_odds, kuhn_with_every_call, kuhn_without_bluffs, leduc,
};
use generator::tables::{GameTables, PlanWeights, SheetOdds};
use reference::game::check_game;
use reference::report::report;
use reference::Refusal;
use std::path::{Path, PathBuf};

/// Fictitious play so long that both denominators are 1,000.
const LEDUC_ROUNDS: usize = 999;

pub struct Example {
    /// The name of its folder.
    pub name: &'static str,
    pub game: Vec<u8>,
    pub plan: Vec<u8>,
    /// The plan as a play sheet, where there is one.
    pub sheet: Option<Vec<u8>>,
}

impl Example {
    fn new(name: &'static str, game: &GameTables, plan: &PlanWeights) -> Result<Self, Refusal> {
        Ok(Example {
            name,
            game: game.bytes()?,
            plan: plan.bytes()?,
            sheet: None,
        })
    }

    /// The same with a sheet of these odds in plan order.
    fn with_odds(self, odds: &[u64]) -> Result<Self, Refusal> {
        let game = check_game(&self.game)?;
        let sheet = SheetOdds::in_plan_order(&game, odds).bytes(&game)?;
        Ok(Example {
            sheet: Some(sheet),
            ..self
        })
    }

    /// What the desk program prints.
    pub fn printed(&self) -> String {
        report(&self.game, &self.plan)
    }

    pub fn folder(&self) -> PathBuf {
        root().join(self.name)
    }

    /// Its files by name.
    pub fn files(&self) -> Vec<(&'static str, Vec<u8>)> {
        let mut files = vec![
            ("game.bin", self.game.clone()),
            ("plan.bin", self.plan.clone()),
            ("stdout", self.printed().into_bytes()),
        ];
        files.extend(self.sheet.clone().map(|sheet| ("sheet.bin", sheet)));
        files
    }
}

/// The folder that holds all examples.
pub fn root() -> PathBuf {
    Path::new(env!("CARGO_MANIFEST_DIR")).join("../../examples")
}

pub fn all() -> Result<Vec<Example>, Refusal> {
    let (study, kuhn, leduc) = (study_game(), kuhn(), leduc());
    let averaged = averaged_best_responses(&check_game(&leduc.bytes()?)?, LEDUC_ROUNDS)?;
    Ok(vec![
        Example::new("study-q", &study, &plan_q())?,
        Example::new("study-m", &study, &plan_m())?,
        Example::new("study-f", &study, &plan_f())?,
        Example::new("study-misfit", &study, &misfit())?,
        Example::new("kuhn-equilibrium", &kuhn, &kuhn_equilibrium(2, 1))?.with_odds(&kuhn_odds())?,
        Example::new("kuhn-without-bluffs", &kuhn, &kuhn_without_bluffs())?,
        Example::new("kuhn-every-call", &kuhn, &kuhn_with_every_call())?,
        Example::new("leduc-averaged", &leduc, &averaged)?,
    ])
}

/// Plan Q, but with S after L, which it never plays.
fn misfit() -> PlanWeights {
    let mut plan = plan_q();
    plan.weights[0][3] = 1;
    plan
}
