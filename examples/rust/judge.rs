//! Judges a plan pair: `judge GAME PLAN`. An absent or unreadable file counts as empty.

use std::{env, fs, process};

/// The library's declarations for Rust.
#[allow(dead_code)]
#[path = "../../native/desk/src/exports.rs"]
mod exports;

/// As many entries as any strategy has, and more.
const MOVES: usize = 4_095;

enum Verdict {
    Accepted,
    /// The gain is `gain` / `base`; a move for each of the player's sets, rising.
    Deviation {
        player: u64,
        gain: i64,
        base: u64,
        moves: Vec<u64>,
    },
}

/// The verdict, or the number of the refusal.
fn verdict(game: &[u8], plan: &[u8]) -> Result<Verdict, u64> {
    let (mut player, mut gain, mut base, mut count) = (0, 0, 0, 0);
    let mut moves = vec![0; MOVES];
    // Each pointer is that of a slice or a number that lives through the call, and nothing that
    // is written to is reached by two of them.
    let refusal = unsafe {
        exports::desk_verdict(
            game.as_ptr(),
            game.len(),
            plan.as_ptr(),
            plan.len(),
            &mut player,
            &mut gain,
            &mut base,
            &mut count,
            moves.as_mut_ptr(),
            moves.len(),
        )
    };
    if refusal != 0 {
        return Err(refusal);
    }
    if player == 0 {
        return Ok(Verdict::Accepted);
    }
    moves.truncate(count as usize);
    Ok(Verdict::Deviation {
        player,
        gain,
        base,
        moves,
    })
}

fn main() {
    let paths: Vec<String> = env::args().skip(1).collect();
    let [game, plan] = &paths[..] else {
        eprintln!("usage: judge GAME PLAN");
        process::exit(2);
    };
    let [game, plan] = [game, plan].map(|path| fs::read(path).unwrap_or_default());
    match verdict(&game, &plan) {
        Err(refusal) => println!("refusal {refusal}"),
        Ok(Verdict::Accepted) => println!("accepted"),
        Ok(Verdict::Deviation {
            player,
            gain,
            base,
            moves,
        }) => {
            let moves: String = moves.iter().map(|number| format!(" {number}")).collect();
            println!("player {player} gains {gain} of {base} by moves{moves}");
        }
    }
}
