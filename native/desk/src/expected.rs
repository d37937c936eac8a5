//! What the independent implementation gives, as the exports give it, in buffers exactly long
//! enough.

use crate::form::{TableBuffers, Values};
use crate::verdict::VerdictBuffers;
use crate::{Counts, PlanBuffers, Refusal};
use reference::form::{best_response, value_count};
use reference::game::{Game, Player};
use reference::plan::Plan;
use reference::verdict::Verdict;

pub fn counts(game: &Game) -> Counts {
    Counts {
        nodes: game.nodes().len() as u64,
        sets: game.sets().len() as u64,
        root_weight: game.root_weight(),
    }
}

pub fn plan_fields(plan: &Plan) -> PlanBuffers {
    PlanBuffers {
        d1: plan.denominator(Player::One),
        d2: plan.denominator(Player::Two),
        weights: plan.weights_in_file_order(),
    }
}

pub fn payoff_table(game: &Game) -> TableBuffers {
    let rows = reference::form::payoff_table(game);
    let sequences = |player: usize| rows.iter().map(move |row| row.sequences[player] as u64);
    let sums = |player: usize| rows.iter().map(move |row| narrow(row.sums[player]));
    TableBuffers {
        sequences: [0, 1].map(|player| sequences(player).collect()),
        sums: [0, 1].map(|player| sums(player).collect()),
        rows: rows.len() as u64,
    }
}

pub fn values(plan: &Plan) -> Values {
    let denominators = Player::BOTH.map(|player| plan.denominator(player));
    Values {
        values: Player::BOTH.map(|player| narrow(value_count(plan, player))),
        bests: Player::BOTH.map(|player| narrow(best_response(plan, player).count())),
        weights: [plan.game().root_weight(), denominators[0], denominators[1]],
    }
}

/// A verdict on a plan pair; an accepted one has no moves.
pub fn verdict(plan: &Plan, verdict: &Verdict) -> VerdictBuffers {
    let accepted = VerdictBuffers {
        base: plan.value_base(),
        ..VerdictBuffers::with_room(0)
    };
    match verdict {
        Verdict::Accepted => accepted,
        Verdict::Deviation(shown) => VerdictBuffers {
            player: shown.player.index() as u64 + 1,
            gain: narrow(shown.gain),
            count: shown.moves.len() as u64,
            moves: shown.moves.iter().map(|own| own.number as u64).collect(),
            ..accepted
        },
    }
}

/// A text for two files, or the refusal that it names.
pub fn report(game: &[u8], plan: &[u8]) -> Result<Vec<u8>, Refusal> {
    let text = reference::report::report(game, plan);
    match text.strip_prefix("refusal ") {
        Some(number) => Err(number.trim_end().parse().expect("a number")),
        None => Ok(text.into_bytes()),
    }
}

fn narrow(sum: i128) -> i64 {
    i64::try_from(sum).expect("any sum of document 01 has fewer than 64 bits")
}
