//! The committed examples: their files, what is said of them, and the page that shows them.

use example_pairs::{all, root, Example};
use reference::brute::earnings;
use reference::form::{best_response, value_count};
use reference::game::{check_game, Game, Kind, Player};
use reference::limits::LARGEST;
use reference::plan::{check_plan, Plan};
use reference::sheet::{check_sheet, is_over_smallest, plan_from_sheet, sheet_from_plan, WIDTH};
use reference::verdict::{verdict, Verdict};
use std::collections::BTreeSet;
use std::fs;
use std::path::Path;
use std::sync::OnceLock;

/// What stands beside the pairs: the page, and the programs that call the library.
const BESIDE: [&str; 3] = ["README.md", "c", "rust"];

/// The examples, made once for all tests.
fn examples() -> &'static [Example] {
    static EXAMPLES: OnceLock<Vec<Example>> = OnceLock::new();
    EXAMPLES.get_or_init(|| all().unwrap())
}

fn names_in(folder: &Path) -> BTreeSet<String> {
    let entries = fs::read_dir(folder).unwrap();
    let name = |entry: fs::DirEntry| entry.file_name().into_string().unwrap();
    entries.map(|entry| name(entry.unwrap())).collect()
}

fn committed(example: &str, file: &str) -> Vec<u8> {
    fs::read(root().join(example).join(file)).unwrap()
}

/// Reads a committed pair and says something of it.
fn judge<T>(example: &str, said: impl Fn(&Plan) -> T) -> T {
    let game = check_game(&committed(example, "game.bin")).unwrap();
    let plan = check_plan(&game, &committed(example, "plan.bin")).unwrap();
    said(&plan)
}

/// D0 × D1 × D2.
fn base(plan: &Plan) -> i128 {
    i128::from(plan.value_base())
}

#[test]
fn the_committed_files_are_those_made_here() {
    for example in examples() {
        let folder = example.folder();
        let files = example.files();
        let names = files.iter().map(|(name, _)| name.to_string());
        assert_eq!(names_in(&folder), names.collect());
        for (name, bytes) in files {
            assert!(
                bytes == committed(example.name, name),
                "{}/{name}",
                example.name
            );
        }
    }
    let names = examples().iter().map(|example| example.name);
    let wanted = names.chain(BESIDE).map(String::from).collect();
    assert_eq!(names_in(&root()), wanted);
}

#[test]
fn the_pairs_get_the_verdicts_that_the_page_gives() {
    for name in ["study-q", "study-m", "kuhn-equilibrium"] {
        assert_eq!(judge(name, verdict), Verdict::Accepted, "{name}");
    }
    // The player who is shown, and his gain as a fraction.
    for (name, player, [gain, of]) in [
        ("study-f", Player::One, [1, 2]),
        ("kuhn-without-bluffs", Player::Two, [1, 6]),
        ("kuhn-every-call", Player::One, [11, 36]),
    ] {
        let (shown, base) = judge(name, |plan| (verdict(plan), base(plan)));
        let Verdict::Deviation(shown) = shown else {
            panic!("{name} is accepted");
        };
        assert_eq!(shown.player, player, "{name}");
        assert_eq!(shown.gain * of, gain * base, "{name}");
    }
    let game = check_game(&committed("study-misfit", "game.bin")).unwrap();
    let plan = committed("study-misfit", "plan.bin");
    assert_eq!(check_plan(&game, &plan).err(), Some(16));
}

/// The gain by the leaves alone: what the shown strategy earns less the value.
#[test]
fn each_shown_strategy_earns_its_gain() {
    let mut shown = 0;
    for example in examples() {
        let Ok(game) = check_game(&example.game) else {
            continue;
        };
        let Ok(plan) = check_plan(&game, &example.plan) else {
            continue;
        };
        if let Verdict::Deviation(deviation) = verdict(&plan) {
            let player = deviation.player;
            let own = i128::from(plan.denominator(player));
            let earned = earnings(&plan, player, &deviation.moves) * own;
            assert!(deviation.gain > 0);
            assert_eq!(earned - value_count(&plan, player), deviation.gain);
            shown += 1;
        }
    }
    assert_eq!(shown, 4);
}

#[test]
fn kuhn_poker_is_worth_exactly_minus_1_18th_to_player_1() {
    judge("kuhn-equilibrium", |plan| {
        let [one, two] = Player::BOTH.map(|player| value_count(plan, player));
        assert_eq!(one * 18, -base(plan));
        assert_eq!(two * 18, base(plan));
        for player in Player::BOTH {
            let own = i128::from(plan.denominator(player));
            let best = best_response(plan, player).count();
            assert_eq!(best * own, value_count(plan, player));
        }
    });
}

/// The sheet gives the plan and the plan the sheet, bit for bit, since D1 and D2 are the smallest;
/// and the pair is accepted.
#[test]
fn the_sheet_of_kuhn_poker_is_its_plan() {
    let [game, plan, sheet] =
        ["game.bin", "plan.bin", "sheet.bin"].map(|file| committed("kuhn-equilibrium", file));
    assert_eq!(sheet.len(), 36);
    assert_eq!(
        plan_from_sheet(&game, &sheet, WIDTH, LARGEST),
        Ok(plan.clone())
    );
    assert_eq!(sheet_from_plan(&game, &plan, WIDTH), Ok(sheet));
    judge("kuhn-equilibrium", |plan| {
        for player in Player::BOTH {
            assert!(is_over_smallest(plan, player));
        }
        assert_eq!(verdict(plan), Verdict::Accepted);
    });
}

/// The page's table of odds, a card a row: player 1's two sets, then player 2's.
#[test]
fn the_page_shows_the_odds_of_the_sheet() {
    let page = fs::read_to_string(root().join("README.md")).unwrap();
    let game = check_game(&committed("kuhn-equilibrium", "game.bin")).unwrap();
    let sheet = committed("kuhn-equilibrium", "sheet.bin");
    let sheet = check_sheet(&game, &sheet, WIDTH).unwrap();
    for (card, name) in ["J", "Q", "K"].iter().enumerate() {
        let sets = [2 * card, 2 * card + 1, 6 + 2 * card, 7 + 2 * card];
        let odds = sets.map(|set| format!("{} : {}", sheet.odds()[set][0], sheet.odds()[set][1]));
        let row = format!("\n| {name} | {} |\n", odds.join(" | "));
        assert!(page.contains(&row), "{row}");
    }
}

/// Document 004, table 1: chance nodes, leaves, decisions of each player, sets and sequences
/// likewise.
#[test]
fn poker_has_the_sizes_of_document_004() {
    let sizes = |name| {
        let game = check_game(&committed(name, "game.bin")).unwrap();
        (game.nodes().len(), counts(&game))
    };
    for name in ["kuhn-equilibrium", "kuhn-without-bluffs", "kuhn-every-call"] {
        assert_eq!(sizes(name), (55, [1, 30, 12, 12, 6, 6, 13, 13]));
    }
    let leduc = sizes("leduc-averaged");
    assert_eq!(leduc, (1_936, [46, 1_116, 387, 387, 144, 144, 337, 337]));
}

fn counts(game: &Game) -> [usize; 8] {
    let mut nodes = [0; 4];
    for node in game.nodes() {
        match node.kind {
            Kind::Chance { .. } => nodes[0] += 1,
            Kind::Leaf { .. } => nodes[1] += 1,
            Kind::Decision { set } => nodes[2 + game.sets()[set].player.index()] += 1,
        }
    }
    let [chance, leaves, one, two] = nodes;
    let [sets1, sets2] = Player::BOTH.map(|player| game.sets_of(player).len());
    let [sequences1, sequences2] = Player::BOTH.map(|player| game.sequence_count(player));
    [
        chance, leaves, one, two, sets1, sets2, sequences1, sequences2,
    ]
}

/// Leduc poker is zero-sum, so its value lies between what each best response holds the other to.
#[test]
fn the_leduc_pair_is_near_an_equilibrium() {
    judge("leduc-averaged", |plan| {
        assert_eq!(
            Player::BOTH.map(|player| plan.denominator(player)),
            [1_000; 2]
        );
        let most = best_response(plan, Player::One).count();
        let least = -best_response(plan, Player::Two).count();
        let thousandths = |count: i128| count * 1_000 / (120 * 1_000);
        assert!(least < most);
        assert!(thousandths(most - least) < 200);
        assert!(thousandths(least) < -85 && -85 < thousandths(most));
    });
}

/// The page has, under a heading with each example's name, what is printed there; of Leduc
/// poker the beginning.
#[test]
fn the_page_shows_what_is_printed() {
    let page = fs::read_to_string(root().join("README.md")).unwrap();
    for example in examples() {
        let name = example.name;
        let heading = format!("\n### {name}\n");
        let (_, section) = page.split_once(&heading).expect(name);
        let (_, block) = section.split_once("```\n").expect(name);
        let (block, _) = block.split_once("```\n").expect(name);
        let printed = example.printed();
        match block.split_once("...\n") {
            Some((beginning, "")) if name == "leduc-averaged" => {
                assert!(beginning.lines().count() > 5);
                assert!(printed.starts_with(beginning), "{name}");
            }
            _ => assert_eq!(block, printed, "{name}"),
        }
    }
}
