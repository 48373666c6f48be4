//! The plain reading of the record call, alone and beside the original: no door is asked here.

use host::calls::{PATH_LETTERS, count, texts_of};
use host::made::one_run;
use host::model;
use host::model::reports::Rp;
use host::model::session::World;
use host::oracle::reader::read;
use host::paths::{self, Kind};
use host::random::Random;
use host::runs::{Through, shown, through_model, through_original};
use host::spaces;
use host::streams::{self, AMPLE, Stream};
use host::tally::{Met, Seen};

// ---- listed

/// Document 01, 'One run, whole'.
#[test]
fn the_run_of_document_01_gives_its_reports() {
    let mut world = World::set_up(AMPLE, 0);
    for record in one_run() {
        assert_eq!(world.step(&record.bytes()), 0, "{record:?}");
    }
    let session = world.decode().expect("a session that is well formed");
    let report = |event, kind, tuple| Rp {
        kind,
        constraint: 0,
        field: 0,
        scope: 1,
        event,
        tuple,
    };
    assert_eq!(session.reports, [report(6, 4, 1), report(8, 3, 0)]);
    let counts = (session.events, session.tuples.len(), session.reports.len());
    assert_eq!(counts, (10, 1, 2));
}

// ---- the reader beside the original

/// Whether a path is read; none where it holds other white space than XML's, which the original drops.
#[track_caller]
fn compare_reading(kind: Kind, path: &str) -> Option<bool> {
    if spaces::holds_other(path) {
        return None;
    }
    let due = read(kind, path);
    assert_eq!(
        model::paths::read(kind, path.as_bytes()),
        due,
        "{kind:?} {path:?}"
    );
    Some(due.is_some())
}

#[test]
#[cfg_attr(
    not(oracle),
    ignore = "not compared: the original Rust is not there (FASTXML_SRC, ../shared/docs/src)"
)]
fn the_model_reads_paths_as_the_original_does() {
    let mut readings = Seen::default();
    for length in 0..=4 {
        for path in texts_of(&PATH_LETTERS, length, 0..count(&PATH_LETTERS, length)) {
            for kind in Kind::BOTH {
                readings.take(compare_reading(kind, &path));
            }
        }
    }
    let mut random = Random::new(0x4EAD);
    for _ in 0..20_000 {
        let question = paths::question(&mut random);
        readings.take(compare_reading(question.kind, &question.path));
        let readable = paths::readable(&mut random, question.kind);
        readings.take(compare_reading(question.kind, &readable));
    }
    readings.assert_each_at_least([Some(true), Some(false)], 10_000);
}

// ---- streams beside the original, and the counts by the tree

#[track_caller]
fn compare(stream: &Stream, through: Through, met: &mut Met) {
    if let Err(fault) = through(stream, met) {
        panic!("{}", shown(stream, through, fault));
    }
}

#[test]
#[cfg_attr(
    not(oracle),
    ignore = "not compared: the original Rust is not there (FASTXML_SRC, ../shared/docs/src)"
)]
fn documents_are_reported_as_by_the_original() {
    let mut random = Random::new(0xB51D);
    let mut met = Met::default();
    for _ in 0..1_000 {
        let stream = streams::well_formed(&mut random);
        compare(&stream, through_original, &mut met);
    }
    met.kinds.assert_each_at_least(1..=6, 50);
    met.replies.assert_each_at_least([0], 10_000);
    met.assert_beside_at_least(600);
    assert!(met.scopes > 1_000, "{} scopes", met.scopes);
}

#[test]
fn closed_scopes_are_reported_as_by_the_tree() {
    let mut met = Met::default();
    for number in 0..1_000 {
        let stream = streams::numbered(0xB51E, number);
        compare(&stream, through_model, &mut met);
    }
    met.assert_each_at_least(5);
}
