//! What a writer is given, as the words of a case's file.

use super::{Case, Input};
use reference::Refusal;

/// How many entries a list of a case has room for.
const ENTRIES: usize = 16;

/// A case's file, or 17 where a list is too long for it.
pub fn bytes_of(case: &Case) -> Result<Vec<u8>, Refusal> {
    let mut words = vec![case.room as u64];
    match &case.input {
        Input::Game(tables) => {
            words.push(tables.root_weight);
            let fields = &tables.fields;
            let unsigned = [
                &fields.players,
                &fields.set_moves,
                &fields.kinds,
                &fields.parents,
                &fields.moves,
                &fields.weights,
                &fields.sets,
                &fields.chance_moves,
            ];
            for list in unsigned {
                push_list(&mut words, list)?;
            }
            for list in &fields.payoffs {
                let entries: Vec<u64> = list.iter().map(|&payoff| payoff as u64).collect();
                push_list(&mut words, &entries)?;
            }
        }
        Input::Plan { d1, d2, weights } => {
            words.extend([d1, d2]);
            push_list(&mut words, weights)?;
        }
    }
    Ok(words.into_iter().flat_map(u64::to_be_bytes).collect())
}

/// The number of entries and 16 words.
fn push_list(words: &mut Vec<u64>, entries: &[u64]) -> Result<(), Refusal> {
    if entries.len() > ENTRIES {
        return Err(17);
    }
    words.push(entries.len() as u64);
    words.extend(entries);
    words.extend(vec![0; ENTRIES - entries.len()]);
    Ok(())
}
