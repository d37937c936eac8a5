//! The proved library's reports and refusal lines, against the independent implementation.

use desk::drawn::{draw, Met};
use desk::listing::{amount, Amount};
use desk::report::{refusal_line, report};
use desk::{expected, Output, Refusal};
use generator::large::{most_nodes, most_sets, most_sets_of_one};
use generator::plans::even_plan;
use generator::rng::Rng;
use reference::game::check_game;
use std::thread;

/// As much as a thread has where nothing else is asked for.
const STACK: usize = 2 << 20;

/// How many drawn pairs are tried.
const PAIRS: usize = 10_000;

/// A call with a buffer of this length must give this, and touch nothing past it.
fn compare_room(
    call: impl Fn(&mut Output) -> Result<(), Refusal>,
    wanted: &Result<Vec<u8>, Refusal>,
    room: usize,
) {
    let before = Output {
        bytes: (0..room).map(|place| (place * 37 + 11) as u8).collect(),
        length: 987_654,
    };
    let mut after = before.clone();
    let answer = match wanted {
        Ok(text) if text.len() <= room => {
            after.bytes[..text.len()].copy_from_slice(text);
            after.length = text.len() as u64;
            Ok(())
        }
        Ok(_) => Err(18),
        Err(refusal) => Err(*refusal),
    };
    let mut out = before.clone();
    assert_eq!(call(&mut out), answer, "room {room}");
    assert!(out == after, "room {room}");
}

/// By the text alone: all amounts have one base, no best value is below its value, and what lies
/// between the two of the first player who can gain is his gain.
fn check_amounts(text: &str) {
    let base = amount(text, "value 1 ").unwrap().base;
    let gains = [1, 2].map(|player| {
        let [value, best] =
            ["value", "best"].map(|label| amount(text, &format!("{label} {player} ")).unwrap());
        assert_eq!([value.base, best.base], [base; 2], "{text}");
        best.count - value.count
    });
    assert!(gains.iter().all(|&gain| gain >= 0), "{text}");
    let Some((player, count)) = (1..).zip(gains).find(|&(_, gain)| gain > 0) else {
        assert!(text.ends_with("\naccepted\n"), "{text}");
        return;
    };
    let shown = amount(text, &format!("deviation player {player} gain "));
    assert_eq!(shown, Some(Amount { count, base }), "{text}");
}

/// A buffer that is one byte short, one that is exactly long enough, and such as are so much
/// longer. Gives what the desk program prints.
fn compare(game: &[u8], plan: &[u8], longer: &[usize]) -> String {
    let wanted = expected::report(game, plan);
    let call = |out: &mut Output| report(game, plan, out);
    let length = wanted.as_ref().map_or(1, Vec::len);
    compare_room(call, &wanted, length - 1);
    compare_room(call, &wanted, length);
    for more in longer {
        compare_room(call, &wanted, length + more);
    }
    match wanted {
        Ok(text) => {
            let text = String::from_utf8(text).unwrap();
            check_amounts(&text);
            text
        }
        Err(refusal) => reference::report::refusal_line(refusal.into()),
    }
}

#[test]
fn reports_on_drawn_pairs_agree() {
    let mut rng = Rng::new(20_260);
    let mut met = Met::default();
    while met.pairs < PAIRS {
        for pair in draw(&mut rng).unwrap() {
            met.count(&compare(&pair.game, &pair.plan, &[5]));
        }
    }
    assert!(met.refusals.iter().all(|&count| count > 3), "{met:?}");
    assert!(met.accepted > 100, "{met:?}");
    assert!(met.deviations.iter().all(|&count| count > 50), "{met:?}");
    assert!(met.small_gains > 100, "{met:?}");
}

/// Games of 4,095 nodes, the longest listing among them, in a thread of 2 MiB.
#[test]
fn reports_on_full_size_games_agree_in_a_small_stack() {
    let work = || {
        for tables in [most_nodes(), most_sets(), most_sets_of_one()] {
            let game = tables.bytes().unwrap();
            let plan = even_plan(&check_game(&game).unwrap(), [4_095, 4_094]);
            compare(&game, &plan.bytes().unwrap(), &[]);
        }
    };
    let thread = thread::Builder::new().stack_size(STACK).spawn(work);
    thread.expect("a thread").join().expect("no overflow");
}

#[test]
fn refusal_lines_are_the_word_and_the_number() {
    let mut numbers: Vec<u64> = (0..=300).collect();
    for digits in 3..20 {
        let power = 10_u64.pow(digits);
        numbers.extend([power - 1, power, power + 1]);
    }
    numbers.push(u64::MAX);
    for number in numbers {
        let line = format!("refusal {number}\n").into_bytes();
        let length = line.len();
        let wanted = Ok(line);
        for room in 0..length + 3 {
            compare_room(|out| refusal_line(number, out), &wanted, room);
        }
    }
}
