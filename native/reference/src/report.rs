//! What the desk program prints.

use crate::form::{best_response, value_count};
use crate::game::{check_game, Player};
use crate::plan::{check_plan, Plan};
use crate::verdict::{verdict, Deviation, Verdict};
use crate::Refusal;

/// The text for a game file and a plan file, line feeds included.
pub fn report(game_file: &[u8], plan_file: &[u8]) -> String {
    match lines(game_file, plan_file) {
        Ok(lines) => lines.iter().map(|line| format!("{line}\n")).collect(),
        Err(refusal) => refusal_line(refusal.into()),
    }
}

/// The line for a refusal's number, whatever number it is.
pub fn refusal_line(number: u64) -> String {
    format!("refusal {number}\n")
}

fn lines(game_file: &[u8], plan_file: &[u8]) -> Result<Vec<String>, Refusal> {
    let game = check_game(game_file)?;
    let plan = check_plan(&game, plan_file)?;
    let mut lines = Vec::new();
    for player in Player::BOTH {
        let value = amount(&plan, value_count(&plan, player));
        lines.push(format!("value {} {value}", name(player)));
    }
    for player in Player::BOTH {
        let best = amount(&plan, best_count(&plan, player));
        lines.push(format!("best {} {best}", name(player)));
    }
    match verdict(&plan) {
        Verdict::Accepted => lines.push("accepted".to_string()),
        Verdict::Deviation(deviation) => lines.extend(deviation_lines(&plan, &deviation)),
    }
    Ok(lines)
}

fn deviation_lines(plan: &Plan, deviation: &Deviation) -> Vec<String> {
    let player = name(deviation.player);
    let gain = amount(plan, deviation.gain);
    let mut lines = vec![format!("deviation player {player} gain {gain}")];
    for choice in &deviation.moves {
        lines.push(format!("set {} move {}", choice.set, choice.number));
    }
    lines
}

fn name(player: Player) -> usize {
    player.index() + 1
}

/// The best value, which is counted over D0 × the other's D, brought to D0 × D1 × D2.
fn best_count(plan: &Plan, player: Player) -> i128 {
    best_response(plan, player).count() * i128::from(plan.denominator(player))
}

/// The exact count, then D0 × D1 × D2, as document 02, W-202 has it.
fn amount(plan: &Plan, count: i128) -> String {
    format!("{count} of {}", plan.value_base())
}
