//! The cases of the plan writer.

use super::{case, Case, Input};
use reference::Refusal;

/// Plan M's weights in file order.
const M: [u64; 6] = [3, 0, 1, 2, 1, 2];

pub fn cases() -> Vec<Case> {
    let mut cases = written();
    cases.extend(wide_numbers());
    cases.extend(short_buffers());
    cases
}

fn plan(
    refusal: Refusal,
    title: impl Into<String>,
    room: usize,
    [d1, d2]: [u64; 2],
    weights: &[u64],
) -> Case {
    let weights = weights.to_vec();
    case(refusal, title, room, Input::Plan { d1, d2, weights })
}

fn written() -> Vec<Case> {
    vec![
        plan(0, "plan-m", 13, [3, 3], &M),
        plan(0, "plan-m-longer", 20, [3, 3], &M),
        plan(0, "plan-without-weights", 4, [1, 2], &[]),
        plan(0, "plan-without-weights-longer", 6, [4_095, 1], &[]),
        plan(0, "plan-of-one-move", 6, [9, 2], &[9]),
        plan(0, "plan-of-three-moves-longer", 11, [4, 5], &[1, 1, 2]),
        plan(0, "plan-of-largest-numbers", 28, [4_095; 2], &[4_095; 16]),
        plan(0, "plan-of-zeros", 9, [0; 2], &[0; 3]),
        plan(
            0,
            "plan-that-does-not-fit",
            13,
            [1, 2],
            &[4_095, 3, 2, 1, 0, 7],
        ),
    ]
}

/// 17: D1, D2, the first or the last weight too large.
fn wide_numbers() -> Vec<Case> {
    let mut cases = Vec::new();
    for number in [4_096, 4_099, 1 << 32, u64::MAX] {
        let with = |place: usize| {
            let mut weights = M;
            weights[place] = number;
            weights
        };
        let title = |which| format!("plan-{which}-{number}");
        cases.extend([
            plan(17, title("d1"), 20, [number, 3], &M),
            plan(17, title("d2"), 20, [3, number], &M),
            plan(17, title("first-weight"), 20, [3; 2], &with(0)),
            plan(17, title("last-weight"), 20, [3; 2], &with(5)),
        ]);
    }
    cases
}

/// 18, and 17 before it.
fn short_buffers() -> Vec<Case> {
    vec![
        plan(18, "plan-m-one-short", 12, [3, 3], &M),
        plan(18, "plan-m-no-room", 0, [3, 3], &M),
        plan(18, "plan-without-weights-one-short", 3, [1, 2], &[]),
        plan(18, "plan-of-three-moves-one-short", 8, [4, 5], &[1, 1, 2]),
        plan(17, "plan-before-18", 12, [3, 4_096], &M),
        plan(17, "plan-before-18-no-room", 0, [3, 4_096], &M),
    ]
}
