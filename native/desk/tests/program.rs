//! The desk program as it is built, in folders with all kinds of files, against what the
//! independent implementation prints for their bytes.

use desk::drawn::{draw, Met};
use desk::program::{built, printed, scripted_calls, Folder};
use generator::large::{most_bytes, most_nodes, most_sets, most_sets_of_one};
use generator::named::{plan_f, plan_m, study_game};
use generator::plans::even_plan;
use generator::rng::Rng;
use generator::tables::GameTables;
use reference::game::check_game;
use reference::report::report;
use std::fs::{self, File, Permissions};
use std::io::{ErrorKind, Read};
use std::os::unix::fs::{symlink, PermissionsExt};
use std::os::unix::net::UnixListener;
use std::os::unix::process::CommandExt;
use std::path::Path;
use std::process::Command;

const MEGABYTE: usize = 1 << 20;

/// How many drawn pairs are tried here; `compare_program` tries any number.
const PAIRS: usize = 2_000;

/// What is said of arguments.
const USAGE: &str =
    "usage: desk, with game.bin and plan.bin in the working folder; it takes no arguments\n";

/// The user that may do nothing, by custom.
const NOBODY: u32 = 65_534;

fn study() -> Vec<u8> {
    study_game().bytes().unwrap()
}

fn m() -> Vec<u8> {
    plan_m().bytes().unwrap()
}

/// The file with zeros up to a length.
fn filled(file: &[u8], length: usize) -> Vec<u8> {
    let mut file = file.to_vec();
    file.resize(length, 0);
    file
}

/// A game with a plan that shares 4,095 and 4,094 out as evenly as can be.
fn even(tables: &GameTables) -> [Vec<u8>; 2] {
    let game = tables.bytes().unwrap();
    let plan = even_plan(&check_game(&game).unwrap(), [4_095, 4_094]);
    [game, plan.bytes().unwrap()]
}

/// Runs the program on two files, which it must leave as they are, with none beside them.
fn compare(game: &[u8], plan: &[u8]) -> String {
    let folder = Folder::new().unwrap();
    folder.put(game, plan).unwrap();
    let text = folder.printed().unwrap();
    assert_eq!(text, report(game, plan));
    assert!(fs::read(folder.game()).unwrap() == game);
    assert!(fs::read(folder.plan()).unwrap() == plan);
    assert_eq!(fs::read_dir(folder.path()).unwrap().count(), 2);
    text
}

/// Runs the program in a folder where something else than a file that can be read stands in
/// place of the game, then of the plan: it counts as empty.
fn compare_unreadable(put: impl Fn(&Path)) {
    let folder = Folder::new().unwrap();
    put(&folder.game());
    fs::write(folder.plan(), m()).unwrap();
    assert_eq!(folder.printed().unwrap(), "refusal 1\n");
    let folder = Folder::new().unwrap();
    fs::write(folder.game(), study()).unwrap();
    put(&folder.plan());
    assert_eq!(folder.printed().unwrap(), "refusal 14\n");
}

/// As document 02, W-202 prints it.
#[test]
fn plan_f_has_its_listing() {
    let wanted = "value 1 6 of 2
value 2 6 of 2
best 1 7 of 2
best 2 6 of 2
deviation player 1 gain 1 of 2
set 0 move 0
set 2 move 0
";
    assert_eq!(compare(&study(), &plan_f().bytes().unwrap()), wanted);
}

#[test]
fn absent_files_count_as_empty() {
    let folder = Folder::new().unwrap();
    assert_eq!(folder.printed().unwrap(), "refusal 1\n");
    compare_unreadable(|_| ());
    assert_eq!(compare(&[], &[]), "refusal 1\n");
    assert_eq!(compare(&[], &m()), "refusal 1\n");
    assert_eq!(compare(&study(), &[]), "refusal 14\n");
}

#[test]
fn what_is_no_file_counts_as_empty() {
    compare_unreadable(|path| fs::create_dir(path).unwrap());
    compare_unreadable(|path| symlink("absent", path).unwrap());
    compare_unreadable(|path| symlink(path, path).unwrap());
    compare_unreadable(|path| drop(UnixListener::bind(path).unwrap()));
}

/// A process may open its own memory, and reading at its beginning fails.
#[test]
fn a_file_whose_reading_fails_counts_as_empty() {
    let mut memory = File::open("/proc/self/mem").unwrap();
    assert!(memory.read(&mut [0; 8]).is_err());
    compare_unreadable(|path| symlink("/proc/self/mem", path).unwrap());
}

#[test]
fn a_file_behind_a_link_is_read() {
    let folder = Folder::new().unwrap();
    fs::write(folder.path().join("elsewhere"), study()).unwrap();
    symlink("elsewhere", folder.game()).unwrap();
    fs::write(folder.plan(), m()).unwrap();
    assert_eq!(folder.printed().unwrap(), report(&study(), &m()));
}

/// Runs the program with arguments, where both files can be judged and it ends at once if it opens
/// one: it says how it is used.
fn compare_arguments(arguments: &[&str]) {
    let calls = scripted_calls(env!("CARGO_TARGET_TMPDIR"));
    let folder = Folder::new().unwrap();
    folder.put(&study(), &m()).unwrap();
    let mut command = folder.command();
    command.env("LD_PRELOAD", calls).env("OPENS", "x");
    assert!(!command.output().unwrap().status.success());
    let output = command.args(arguments).output().unwrap();
    assert!(output.status.success(), "{arguments:?}");
    assert!(output.stdout.is_empty(), "{arguments:?}");
    assert_eq!(String::from_utf8(output.stderr).unwrap(), USAGE);
}

/// An argument that was passed over would read like the name of what is judged.
#[test]
fn an_argument_is_not_passed_over() {
    compare_arguments(&["other/game.bin"]);
    compare_arguments(&["other/game.bin", "other/plan.bin"]);
    compare_arguments(&["game.bin", "plan.bin"]);
    compare_arguments(&[""]);
    compare_arguments(&["", ""]);
    compare_arguments(&["--help"]);
    compare_arguments(&["--"]);
    compare_arguments(&["-"; 1_000]);
    compare_arguments(&[&"a".repeat(100_000)]);
}

/// Whether this process may read any file, as root may.
fn reads_any_file() -> bool {
    let folder = Folder::new().unwrap();
    fs::write(folder.game(), []).unwrap();
    shut(&folder.game());
    File::open(folder.game()).is_ok()
}

fn shut(path: &Path) {
    fs::set_permissions(path, Permissions::from_mode(0o000)).unwrap();
}

/// Runs a copy of the program as a user who may not read any file.
fn printed_without_rights(folder: &Folder) -> String {
    let copy = Folder::new().unwrap();
    let program = copy.path().join("desk");
    fs::copy(built(), &program).unwrap();
    for path in [copy.path(), folder.path(), &program] {
        fs::set_permissions(path, Permissions::from_mode(0o755)).unwrap();
    }
    let mut command = Command::new(&program);
    command.current_dir(folder.path());
    if reads_any_file() {
        command.uid(NOBODY).gid(NOBODY);
    }
    loop {
        match printed(&mut command) {
            // Another test's new process has the copy open until it is a program of its own.
            Err(error) if error.kind() == ErrorKind::ExecutableFileBusy => continue,
            text => return text.unwrap(),
        }
    }
}

#[test]
fn a_file_without_permission_counts_as_empty() {
    let folder = Folder::new().unwrap();
    folder.put(&study(), &m()).unwrap();
    assert_eq!(printed_without_rights(&folder), report(&study(), &m()));
    shut(&folder.plan());
    assert_eq!(printed_without_rights(&folder), "refusal 14\n");
    shut(&folder.game());
    assert_eq!(printed_without_rights(&folder), "refusal 1\n");
}

/// A file that begins like an accepted one but goes on is refused, however long it is.
#[test]
fn longer_files_are_refused() {
    let [largest_game, largest_plan] = even(&most_sets_of_one());
    let longest = most_bytes().bytes().unwrap();
    assert_eq!(longest.len(), 36_860);
    assert_eq!(compare(&longest, &m()), "refusal 12\n");
    for game in [&study(), &largest_game, &longest] {
        for length in [game.len() + 1, 36_861, 36_862, 65_536, MEGABYTE] {
            assert_eq!(compare(&filled(game, length), &m()), "refusal 4\n");
        }
    }
    for (game, plan) in [(&study(), &m()), (&largest_game, &largest_plan)] {
        for length in [plan.len() + 1, 36_861, MEGABYTE] {
            assert_eq!(compare(game, &filled(plan, length)), "refusal 14\n");
        }
    }
    assert_eq!(compare(&vec![0; MEGABYTE], &[]), "refusal 2\n");
    assert_eq!(
        compare(&filled(&study(), MEGABYTE), &filled(&m(), MEGABYTE)),
        "refusal 4\n"
    );
}

/// Games of 4,095 nodes: many sets and the longest listing, of 4,078 lines and more.
#[test]
fn full_size_games_are_judged() {
    for tables in [most_nodes(), most_sets(), most_sets_of_one()] {
        let [game, plan] = even(&tables);
        compare(&game, &plan);
    }
}

#[test]
fn the_examples_print_what_stands_beside_them() {
    let examples = Path::new(env!("CARGO_MANIFEST_DIR")).join("../../examples");
    let mut tried = 0;
    for entry in fs::read_dir(examples).unwrap() {
        let folder = entry.unwrap().path();
        if let Ok(wanted) = fs::read_to_string(folder.join("stdout")) {
            let [game, plan] = ["game.bin", "plan.bin"].map(|file| fs::read(folder.join(file)));
            let text = compare(&game.unwrap(), &plan.unwrap());
            assert_eq!(text, wanted, "{}", folder.display());
            tried += 1;
        }
    }
    assert!(tried >= 8, "{tried}");
}

#[test]
fn drawn_pairs_are_judged() {
    let mut rng = Rng::new(1_008);
    let folder = Folder::new().unwrap();
    let mut met = Met::default();
    while met.pairs < PAIRS {
        for pair in draw(&mut rng).unwrap() {
            folder.put(&pair.game, &pair.plan).unwrap();
            let text = folder.printed().unwrap();
            assert_eq!(text, report(&pair.game, &pair.plan));
            met.count(&text);
        }
    }
    assert!(met.refusals.iter().all(|&count| count > 5), "{met:?}");
    assert!(met.refusals[0] > PAIRS / 3, "{met:?}");
    assert!(met.accepted > 100, "{met:?}");
    assert!(met.deviations.iter().all(|&count| count > 100), "{met:?}");
    assert!(met.small_gains > 10, "{met:?}");
}
