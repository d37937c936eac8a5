//! The files of `time_responses`, which times best responses by themselves.

use crate::plan::accepted::even;
use crate::program::Program;
use generator::large::most_nodes;
use reference::form::best_response;
use reference::game::{check_game, Player};
use reference::plan::check_plan;
use reference::Refusal;

/// How many best responses the program makes among the other tests.
const TIMES: u16 = 3;

/// A game of 4,095 nodes against even weights, and player 1's best move in set 0.
pub fn time_responses() -> Result<Program, Refusal> {
    let case = even("4095-nodes", &most_nodes())?;
    let game = check_game(&case.game)?;
    let response = best_response(&check_plan(&game, &case.plan)?, Player::One);
    let best = response.moves.iter().find(|best| best.set == 0);
    let number = best.map_or(0, |best| best.number);
    let data = vec![
        ("game.bin".to_string(), case.game),
        ("plan.bin".to_string(), case.plan),
        ("times".to_string(), TIMES.to_be_bytes().to_vec()),
    ];
    let stdout = format!("best move of set 0: {number}\n");
    Ok(Program::new("time_responses", data, stdout))
}
