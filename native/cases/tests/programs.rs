//! What holds of every program's files.

use cases::plan::Case;
use cases::program::{committed, committed_text, Program};
use cases::{form, plan, programs, report, tolerance, verdict};
use reference::game::check_game;
use reference::plan::check_plan;
use std::collections::BTreeSet;

/// The programs that go through pairs of files, with their cases.
fn pair_programs() -> [(&'static str, Vec<Case>); 5] {
    [
        ("try_plan", plan::all_cases().unwrap()),
        ("try_form", form::all_cases().unwrap()),
        ("try_verdict", verdict::all_cases().unwrap()),
        ("try_report", report::all_cases().unwrap()),
        ("try_tolerance", tolerance::all_cases().unwrap()),
    ]
}

fn refusal(case: &Case) -> u8 {
    let game = check_game(&case.game);
    let answer = game.and_then(|game| check_plan(&game, &case.plan).map(|_| ()));
    answer.err().unwrap_or(0)
}

fn check_committed(program: &Program) {
    let committed = program.committed().unwrap();
    let made = program.files();
    assert!(made.keys().eq(committed.keys()), "{}", program.name());
    for (path, bytes) in made {
        let path_is = format!("{} {}", program.name(), path.display());
        assert!(bytes == &committed[path], "{path_is}");
    }
}

#[test]
fn the_committed_files_are_those_made_here() {
    programs().unwrap().iter().for_each(check_committed);
}

#[test]
fn each_pair_gets_the_refusal_that_it_is_made_for() {
    for (_, cases) in pair_programs() {
        for case in &cases {
            assert_eq!(refusal(case), case.refusal, "{}", case.name());
        }
    }
}

#[test]
fn each_refusal_has_a_pair_and_no_name_stands_twice() {
    for (program, cases) in pair_programs() {
        let refusals: BTreeSet<u8> = cases.iter().map(|case| case.refusal).collect();
        assert!(refusals.into_iter().eq(0..=16), "{program}");
        let names: BTreeSet<String> = cases.iter().map(Case::name).collect();
        assert_eq!(names.len(), cases.len(), "{program}");
    }
}

/// The files of each case of a program.
fn files_of(program: &str) -> &'static [&'static str] {
    match program {
        "try_tolerance" => &["game", "plan", "tolerances"],
        _ => &["game", "plan"],
    }
}

/// Every folder's files stand in the list one after the other.
#[test]
fn the_lists_name_every_pair() {
    for (program, cases) in pair_programs() {
        let list = committed_text(program, "data/cases").unwrap();
        let paths = |case: &Case| {
            let name = case.name();
            let files = files_of(program).iter();
            files.map(move |file| format!("{name}/{file}.bin"))
        };
        assert!(list.lines().eq(cases.iter().flat_map(paths)), "{program}");
    }
}

#[test]
fn every_pair_stands_in_its_folder() {
    for (program, cases) in pair_programs() {
        for case in cases {
            let file = |file: &str| committed(program, &format!("data/{}/{file}", case.name()));
            assert_eq!(file("game.bin").unwrap(), case.game);
            assert_eq!(file("plan.bin").unwrap(), case.plan);
        }
    }
}
