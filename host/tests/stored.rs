//! The stored answers: replayed against the library and the doors, and held against what they were
//! made from.

use host::tally::{Answers, Compared, Seen};
use host::{answers, checker, doors, stored_runs};

const NCNAME: &str = include_str!("../answers/ncname.txt");

/// What the program `stored_paths` reads, and what it is to write.
const PATHS: &[u8] = include_bytes!("../../crates/stored_paths/stdin");
const PATHS_REPLAYED: &str = include_str!("../../crates/stored_paths/stdout");

/// What the program `stored_runs` reads, and what it is to write.
const RUNS: &[u8] = include_bytes!("../../crates/stored_runs/stdin");
const RUNS_REPLAYED: &str = include_str!("../../crates/stored_runs/stdout");

#[test]
fn is_ncname_gives_the_stored_answers() {
    let mut compared = Compared::default();
    for (text, name) in answers::read_ncname(NCNAME) {
        compared.take(doors::is_ncname(&text), name, &text);
    }
    compared.assert_each_at_least(100);
}

#[test]
fn the_stored_names_are_those_that_make_answers_writes() {
    assert_same_lines(NCNAME, &answers::ncname_file());
}

#[test]
fn the_path_checker_gives_the_stored_answers() {
    for (call, answer) in answers::read_paths(PATHS) {
        assert_eq!(call.answer(), answer, "{call:?}");
    }
}

#[test]
fn the_stored_paths_have_every_answer() {
    let mut tally = Answers::default();
    for (call, answer) in answers::read_paths(PATHS) {
        tally.take(call.kind, answer);
    }
    tally.assert_reasons_at_least(50);
    tally.assert_refusals_at_least(20);
    assert_eq!(
        PATHS_REPLAYED,
        format!("{} answers, 0 differ\n", tally.all())
    );
}

#[test]
#[cfg_attr(
    not(oracle),
    ignore = "not compared: the original Rust is not there (FASTXML_SRC, ../shared/docs/src)"
)]
fn the_stored_paths_have_the_answers_that_are_due() {
    let stored = answers::read_paths(PATHS);
    for (call, answer) in &stored {
        assert_eq!(
            checker::due(call.kind, &call.path, &call.prefixes),
            *answer,
            "{call:?}"
        );
    }
    assert!(stored.len() >= 3_000, "{} paths", stored.len());
}

#[test]
#[cfg_attr(
    not(oracle),
    ignore = "not compared: the original Rust is not there (FASTXML_SRC, ../shared/docs/src)"
)]
fn the_stored_paths_are_those_that_make_answers_writes() {
    let made = answers::paths_file();
    for (stored, made) in answers::read_paths(PATHS)
        .iter()
        .zip(answers::read_paths(&made))
    {
        assert_eq!(*stored, made);
    }
    assert_eq!(PATHS.len(), made.len(), "one of the two lists goes on");
}

#[test]
fn the_stored_runs_report_every_kind() {
    let runs = stored_runs::read(RUNS);
    let said = runs.iter().flatten().flat_map(|event| &event.said);
    let mut kinds = Seen::default();
    said.for_each(|it| kinds.take(it.kind));
    kinds.assert_each_at_least(1..=6, 80);
    assert_eq!(RUNS_REPLAYED, stored_runs::replayed(&runs));
}

#[test]
#[cfg_attr(
    not(oracle),
    ignore = "not compared: the original Rust is not there (FASTXML_SRC, ../shared/docs/src)"
)]
fn the_original_says_what_is_stored_of_the_runs() {
    let runs = stored_runs::read(RUNS);
    for (place, run) in (1..).zip(&runs) {
        let differing = stored_runs::differing(run);
        assert_eq!(differing, None, "run {place}: {run:?}");
    }
    assert!(runs.len() >= 300, "{} runs", runs.len());
}

#[test]
#[cfg_attr(
    not(oracle),
    ignore = "not compared: the original Rust is not there (FASTXML_SRC, ../shared/docs/src)"
)]
fn the_stored_runs_are_those_that_make_answers_writes() {
    let made = stored_runs::made();
    for (stored, made) in stored_runs::read(RUNS).iter().zip(&made) {
        assert_eq!(stored, made);
    }
    assert_eq!(
        RUNS,
        stored_runs::file(&made),
        "one of the two lists goes on"
    );
}

/// Line by line, so that the first that differs is shown.
fn assert_same_lines(stored: &str, made: &str) {
    for (stored, made) in stored.lines().zip(made.lines()) {
        assert_eq!(stored, made);
    }
    assert_eq!(stored.len(), made.len(), "one of the two lists goes on");
}
