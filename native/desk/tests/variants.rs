//! Plain Rust by the library's method and by a free choice of method against the library, on
//! drawn pairs, damaged ones among them.

use desk::drawn::draw;
use desk::form::{TableBuffers, Values};
use desk::samples::Pair;
use desk::variants::{self, Variant, COUNT, NAMES};
use desk::verdict::VerdictBuffers;
use desk::{Output, PlanBuffers, Refusal};
use generator::rng::Rng;
use std::fmt::Debug;

/// How many drawn pairs are tried.
const PAIRS: usize = 1_500;

/// Rooms in which every result fits, and few.
const ROOMS: [usize; 2] = [4_095, 2];

const TOLERANCES: [u16; 3] = [0, 1_000, u16::MAX];

type Variants = [Box<dyn Variant>; COUNT];

/// All variants of a call must give one answer, and leave the same in what is lent to them.
fn compare<T: Clone + PartialEq + Debug>(
    variants: &mut Variants,
    lent: &T,
    call: impl Fn(&mut dyn Variant, &mut T) -> Result<(), Refusal>,
) -> Result<(), Refusal> {
    let answers = variants.each_mut().map(|variant| {
        let mut lent = lent.clone();
        (call(variant.as_mut(), &mut lent), lent)
    });
    let [library, others @ ..] = &answers;
    for (other, name) in others.iter().zip(&NAMES[1..]) {
        assert!(other == library, "{name}: {:?}", other.0);
    }
    library.0
}

fn untouched(room: usize) -> (PlanBuffers, TableBuffers, VerdictBuffers) {
    let plan = PlanBuffers::with_room(room);
    let table = TableBuffers::with_room(room);
    (plan, table, VerdictBuffers::with_room(room))
}

/// Compares every call on a pair; the refusal of the verdict with room enough, or 0.
fn compare_pair(variants: &mut Variants, Pair { game, plan, .. }: &Pair) -> usize {
    let counts = variants.each_mut().map(|variant| variant.check_game(game));
    assert_eq!(counts, [counts[0]; COUNT]);
    let untouched_values = Values {
        values: [7; 2],
        ..Values::default()
    };
    let valued = compare(variants, &untouched_values, |variant, out| {
        variant.values(game, plan, out)
    });
    for tolerance in TOLERANCES {
        let judged = compare(variants, &7, |variant, out| {
            variant.tolerates(game, plan, tolerance, out)
        });
        assert_eq!(judged, valued);
    }
    for room in ROOMS {
        let (fields, table, verdict) = untouched(room);
        let listed = compare(variants, &table, |variant, out| {
            variant.payoff_table(game, out)
        });
        assert!(listed == counts[0].map(|_| ()) || listed == Err(18));
        let read = compare(variants, &fields, |variant, out| {
            variant.plan_fields(game, plan, out)
        });
        let judged = compare(variants, &verdict, |variant, out| {
            variant.verdict(game, plan, out)
        });
        for answer in [read, judged] {
            assert!(answer == valued || answer == Err(18));
        }
    }
    valued.err().unwrap_or(0).into()
}

/// Compares both calls of play sheets; the refusal of the sheet with room enough, or 0.
fn compare_sheets(variants: &mut Variants, pair: &Pair) -> usize {
    let [answer, _] = ROOMS.map(|room| {
        let out = Output::with_room(2 * room);
        let _ = compare(variants, &out, |variant, out| {
            variant.sheet_from_plan(&pair.game, &pair.plan, out)
        });
        compare(variants, &out, |variant, out| {
            variant.plan_from_sheet(&pair.game, &pair.sheet, out)
        })
    });
    answer.err().unwrap_or(0).into()
}

#[test]
fn variants_agree_on_drawn_pairs() {
    let mut rng = Rng::new(99);
    let mut variants = variants::all();
    let mut met = [0; 17];
    let mut met_sheets = [0; 22];
    while met.iter().sum::<usize>() < PAIRS {
        for pair in draw(&mut rng).unwrap() {
            met[compare_pair(&mut variants, &pair)] += 1;
            met_sheets[compare_sheets(&mut variants, &pair)] += 1;
        }
    }
    assert!(met.iter().all(|&count| count > 5), "{met:?}");
    assert!(met[1..].iter().sum::<usize>() > PAIRS / 3, "{met:?}");
    let of_sheets = [0, 19, 20, 21].map(|refusal: usize| met_sheets[refusal]);
    assert!(of_sheets.iter().all(|&count| count > 20), "{met_sheets:?}");
}
