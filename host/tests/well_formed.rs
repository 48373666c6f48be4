//! Worlds that are well formed and worlds that are not: refusal 10. The plain reading of document 01
//! against listed cases, the door to the whole test against both, and the doors to its parts.

use host::model::bytes::part;
use host::model::cells::Cell;
use host::model::counts::{Counts, Numbers, Stage, TUPLES_PER_EVENT};
use host::model::definitions::Definitions;
use host::model::names::Name;
use host::model::records::{Id, Ns, Record};
use host::model::reports::{RP, Rp};
use host::model::scopes::{self, SCOPES_MAX, Scope};
use host::model::selections::{SELECTION, Selection};
use host::model::session::{Session, World, field_counts};
use host::model::tuples::Tu;
use host::random::Random;
use host::store_cases::{damaged_world, session, world};
use host::store_doors::{self, Lent};
use host::tally::Seen;

/// The test part by part, each by its door: the counts of one part are what the next is asked about.
fn by_parts(world: &World) -> bool {
    let numbers = world.numbers;
    let counts = store_doors::unpack(numbers.running);
    if !store_doors::counts_fit(numbers, world.lengths(), counts) {
        return false;
    }
    let used = |store: &Vec<u8>, length: u64| part(store, 0, length as usize).to_vec();
    let definitions = used(&world.definition_store, numbers.definitions);
    let Some(tally) = store_doors::read_definitions(&definitions) else {
        return false;
    };
    let depth = store_doors::depth_of(counts.stage);
    let (constraints, opened) = (tally.constraints, counts.opened);
    let (scopes, open) = (scopes::put(&world.scopes), counts.scopes as usize);
    if !store_doors::names_read(&world.names, depth)
        || !store_doors::scopes_fit(&scopes, open, constraints as u32, depth, opened)
    {
        return false;
    }
    let definitions = Definitions::read(&definitions).expect("definitions that read");
    let fields = field_counts(&world.scopes[..open], &definitions);
    let tuples = used(&world.tuple_store, numbers.tuples);
    let reports = used(&world.report_store, numbers.reports);
    store_doors::selections_read(
        &world.cells,
        counts.selections as usize,
        &scopes,
        open,
        &fields,
        depth,
    ) && store_doors::tuples_read(
        &tuples,
        constraints,
        opened,
        TUPLES_PER_EVENT * numbers.events,
    ) && store_doors::reports_read(&reports, constraints)
}

/// The whole test by its door, which is lent sixteen scopes.
fn given(world: &World) -> bool {
    store_doors::well_formed(Lent::of(world, &scopes::put(&world.scopes)))
}

/// Whether a world is well formed, by the doors and by a plain reading alike. With fewer than sixteen
/// scopes it is not, and no door is asked.
#[track_caller]
fn compared(world: &World) -> bool {
    let due = world.decode().is_some();
    if world.scopes.len() < SCOPES_MAX {
        assert!(!due);
        return due;
    }
    assert_eq!(given(world), due, "{}", outline(world));
    assert_eq!(by_parts(world), due, "by parts: {}", outline(world));
    due
}

/// The numbers of a world, and its stores and areas by their lengths.
fn outline(world: &World) -> String {
    let counts = Counts::unpack(world.numbers.running);
    let open = &world.scopes[..(counts.scopes as usize).min(world.scopes.len())];
    format!(
        "{:?}\n{counts:?}\n{:?}\nopen {open:?}",
        world.numbers,
        world.lengths()
    )
}

// ---- listed

fn id(kind: u8, fields: usize) -> Record {
    Record::Id(Id {
        kind,
        name: b"k".into(),
        flag: 0,
        refer: None,
        selector: b"r".into(),
        fields: vec![b"@id".into(); fields],
    })
}

/// Two constraints, of two fields and of one; two elements open; a scope of each constraint open, and
/// three selections; two tuples and a report.
fn sample() -> Session {
    let mut definitions = Definitions::default();
    definitions.define(id(1, 2));
    definitions.define(Record::Ns(Ns {
        target: 3,
        prefix: b"p".into(),
        uri: b"u".into(),
    }));
    definitions.define(id(0, 1));
    let name = |local: &[u8]| Name {
        space: b"u".into(),
        local: local.into(),
    };
    let scope = |constraint, number, depth| Scope {
        constraint,
        number,
        depth,
    };
    let tuple = |scope| Tu {
        constraint: 0,
        scope,
        keys: vec![b"a".into(), b"".into()],
    };
    Session {
        definitions,
        stage: Stage::During(2),
        names: vec![name(b"t"), name(b"r")],
        scopes: vec![scope(0, 2, 1), scope(1, 3, 2)],
        selections: vec![
            Selection::new(0, 1, &[Cell::Set(b"a".into()), Cell::Unset]),
            Selection::new(0, 2, &[Cell::Multiple, Cell::NotSimple]),
            Selection::new(1, 2, &[Cell::Set(b"".into())]),
        ],
        opened: 3,
        events: 9,
        tuples: vec![tuple(1), tuple(3)],
        several_routes: false,
        nillable: false,
        reports: vec![Rp {
            kind: 4,
            constraint: 1,
            field: 0,
            scope: 1,
            event: 5,
            tuple: 1,
        }],
    }
}

/// The same in bytes, in stores without a byte more than are used.
fn sample_world() -> World {
    let session = sample();
    let mut world = world(&mut Random::new(1), &session);
    world
        .definition_store
        .truncate(world.numbers.definitions as usize);
    world.tuple_store.truncate(world.numbers.tuples as usize);
    world.report_store.truncate(world.numbers.reports as usize);
    assert_eq!(world.decode(), Some(session));
    world
}

/// The sample after a change, and whether it is well formed then.
type Row = (&'static str, fn(&mut World), bool);

/// Changes the packed counts.
fn recount(world: &mut World, change: impl Fn(&mut Counts)) {
    let mut counts = Counts::unpack(world.numbers.running);
    change(&mut counts);
    world.numbers.running = counts.pack();
}

fn shorten(store: &mut Vec<u8>) {
    store.truncate(store.len() - 1);
}

#[track_caller]
fn compare_rows(rows: &[Row]) {
    for (case, change, due) in rows {
        let mut world = sample_world();
        change(&mut world);
        assert_eq!(compared(&world), *due, "{case}");
    }
}

#[test]
fn areas_and_stores_of_the_sample_must_be_long_enough() {
    compare_rows(&[
        ("as it is", |_| {}, true),
        ("path area at its least", |it| it.path_area = 1_024, true),
        ("path area", |it| it.path_area = 1_023, false),
        ("a byte more", |it| it.path_area = 1_025, true),
        ("as formerly", |it| it.path_area = 16_384, true),
        ("nearly so", |it| it.path_area = 16_383, true),
        ("names at their least", |it| it.names.truncate(32_896), true),
        ("names", |it| it.names.truncate(32_895), false),
        ("scopes at their least", |it| it.scopes.truncate(16), true),
        ("scopes", |it| it.scopes.truncate(15), false),
        ("cells at their least", |it| it.cells.truncate(16_384), true),
        ("cells", |it| it.cells.truncate(16_383), false),
        ("definitions", |it| shorten(&mut it.definition_store), false),
        ("tuples", |it| shorten(&mut it.tuple_store), false),
        ("reports", |it| shorten(&mut it.report_store), false),
        ("no area", |it| it.names.clear(), false),
        ("no store", |it| it.tuple_store.clear(), false),
    ]);
}

#[test]
fn counts_of_the_sample_must_be_within_their_limits() {
    compare_rows(&[
        ("1,000,000 events", |it| it.numbers.events = 1_000_000, true),
        ("one more", |it| it.numbers.events = 1_000_001, false),
        (
            "one event, 3 scopes opened",
            |it| it.numbers.events = 1,
            true,
        ),
        (
            "8 scopes in one event",
            |it| {
                it.numbers.events = 1;
                recount(it, |counts| counts.opened = 8);
            },
            true,
        ),
        (
            "9 scopes in one event",
            |it| {
                it.numbers.events = 1;
                recount(it, |counts| counts.opened = 9);
            },
            false,
        ),
        ("no event", |it| it.numbers.events = 0, false),
        (
            "fewer open elements",
            |it| recount(it, |counts| counts.stage = 2),
            false,
        ),
        (
            "more, whose name reads",
            |it| {
                it.names[1028..].fill(0);
                recount(it, |counts| counts.stage = 65);
            },
            true,
        ),
        ("67", |it| recount(it, |counts| counts.stage = 67), false),
        (
            "finished with a scope open",
            |it| recount(it, |counts| counts.stage = 66),
            false,
        ),
        (
            "finished",
            |it| {
                recount(it, |counts| {
                    (counts.stage, counts.scopes, counts.selections) = (66, 0, 0);
                })
            },
            true,
        ),
        (
            "before the first ES",
            |it| recount(it, |counts| counts.stage = 0),
            false,
        ),
        ("set up", |it| it.numbers = Numbers::default(), true),
        (
            "set up with tuples",
            |it| {
                it.numbers = Numbers {
                    tuples: it.numbers.tuples,
                    ..Numbers::default()
                };
            },
            false,
        ),
        (
            "set up with reports",
            |it| {
                it.numbers = Numbers {
                    reports: it.numbers.reports,
                    ..Numbers::default()
                };
            },
            false,
        ),
        (
            "definitions alone",
            |it| {
                let definitions = it.numbers.definitions;
                it.numbers = Numbers {
                    definitions,
                    events: 3,
                    ..Numbers::default()
                };
            },
            true,
        ),
    ]);
}

#[test]
fn open_scopes_of_the_sample_must_fit() {
    compare_rows(&[
        ("constraint 2", |it| it.scopes[1].constraint = 2, false),
        (
            "two fields, one of them hit",
            |it| it.scopes[1].constraint = 0,
            true,
        ),
        (
            "one field, two of them hit",
            |it| it.scopes[0].constraint = 1,
            false,
        ),
        ("number 4 of 3", |it| it.scopes[1].number = 4, false),
        ("number 0", |it| it.scopes[0].number = 0, false),
        ("number 1", |it| it.scopes[0].number = 1, true),
        ("the same number", |it| it.scopes[0].number = 3, false),
        ("depth 0", |it| it.scopes[0].depth = 0, false),
        ("depth 3", |it| it.scopes[1].depth = 3, false),
        ("on one element", |it| it.scopes[1].depth = 1, true),
        (
            "a falling depth",
            |it| {
                it.scopes[0].depth = 2;
                it.scopes[1].depth = 1;
                recount(it, |counts| counts.selections = 0);
            },
            false,
        ),
        (
            "a third scope, of zeros",
            |it| {
                it.scopes[2] = Scope::default();
                recount(it, |counts| counts.scopes = 3);
            },
            false,
        ),
        (
            "only the first",
            |it| {
                recount(it, |counts| {
                    (counts.scopes, counts.selections) = (1, 2);
                })
            },
            true,
        ),
        (
            "a selection of a closed scope",
            |it| recount(it, |counts| counts.scopes = 1),
            false,
        ),
        (
            "none",
            |it| recount(it, |counts| (counts.scopes, counts.selections) = (0, 0)),
            true,
        ),
    ]);
}

#[test]
fn open_selections_of_the_sample_must_be_as_they_are_written() {
    compare_rows(&[
        (
            "fewer",
            |it| recount(it, |counts| counts.selections = 2),
            true,
        ),
        (
            "in another order",
            |it| it.cells[..2 * SELECTION].rotate_left(SELECTION),
            false,
        ),
        (
            "twice the same",
            |it| it.cells.copy_within(..SELECTION, SELECTION),
            false,
        ),
        (
            "above its scope",
            |it| it.cells[2 * SELECTION] = 8 + 1,
            false,
        ),
        (
            "below the open elements",
            |it| it.cells[2 * SELECTION] = 24 + 1,
            false,
        ),
        ("depth 0", |it| it.cells[0] = 1, false),
        ("state 4, with an empty key", |it| it.cells[128] = 4, true),
        ("state 4, with the key", |it| it.cells[0] = 8 + 4, true),
        ("state 5", |it| it.cells[128] = 5, false),
        ("state 6", |it| it.cells[128] = 6, false),
        ("state 7", |it| it.cells[128] = 7, false),
        ("a key of 127 bytes", |it| it.cells[1] = 127, false),
        ("a key of 126 bytes", |it| it.cells[1] = 126, true),
        ("a byte behind the key", |it| it.cells[3] = 1, false),
        ("a key in an Unset cell", |it| it.cells[129] = 1, false),
        (
            "a length in a Multiple cell",
            |it| it.cells[SELECTION + 1] = 1,
            false,
        ),
        (
            "a field that is not there, hit",
            |it| it.cells[2 * SELECTION + 128] = 3,
            false,
        ),
        (
            "the field that is there, hit",
            |it| it.cells[2 * SELECTION] = 16 + 3,
            true,
        ),
        ("a number beside cell 3", |it| it.cells[3 * 128] = 8, false),
        (
            "a scope that is not open",
            |it| it.cells[2 * 128] = 16,
            false,
        ),
        ("the depth of the next 32", |it| it.cells[128] = 8, false),
    ]);
}

#[test]
fn names_and_stores_of_the_sample_must_read() {
    compare_rows(&[
        ("a namespace of 256 bytes", |it| it.names[1] = 1, false),
        ("a name of 255 bytes", |it| it.names[257] = 255, true),
        (
            "a name of 65,280 bytes",
            |it| it.names[514 + 258] = 255,
            false,
        ),
        ("a third name", |it| it.names[1028..1032].fill(255), true),
        (
            "an ES mark in the definitions",
            |it| it.definition_store[..2].copy_from_slice(b"ES"),
            false,
        ),
        ("a kind byte of 3", |it| it.definition_store[4] = 3, false),
        ("a length one more", |it| it.definition_store[2] += 1, false),
        ("a TU mark", |it| it.tuple_store[0] = b'R', false),
        ("a TU of constraint 1", |it| it.tuple_store[4] = 1, true),
        ("a TU of constraint 2", |it| it.tuple_store[4] = 2, false),
        ("a TU of scope 0", |it| it.tuple_store[5] = 0, true),
        ("a TU of scope 4", |it| it.tuple_store[5] = 4, false),
        ("a TU with a field less", |it| it.tuple_store[9] = 1, false),
        ("an RP of constraint 2", |it| it.report_store[3] = 2, false),
        ("an RP of kind 200", |it| it.report_store[2] = 200, true),
        ("an RP whose zero is 1", |it| it.report_store[5] = 1, false),
        ("an RP less", |it| it.numbers.reports -= RP as u64, true),
        ("a byte of an RP less", |it| it.numbers.reports -= 1, false),
    ]);
}

/// 32 tuples in one event and not one more.
#[test]
fn an_event_brings_at_most_32_tuples() {
    for (count, due) in [(32, true), (33, false)] {
        let mut session = sample();
        session.tuples = vec![session.tuples[0].clone(); count];
        session.events = 1;
        let world = world(&mut Random::new(7), &session);
        assert_eq!(compared(&world), due);
    }
}

// ---- random and damaged

#[test]
fn sessions_decode_to_themselves() {
    let mut random = Random::new(0x5E55_1011);
    let mut seen = Seen::default();
    for _ in 0..2_000 {
        let session = session(&mut random);
        let world = world(&mut random, &session);
        assert!(compared(&world), "{}", outline(&world));
        seen.take((session.scopes.len() == 16, session.selections.len() == 32));
        assert_eq!(world.decode(), Some(session));
    }
    let full = [(false, false), (false, true), (true, false), (true, true)];
    seen.assert_each_at_least(full, 20);
}

#[test]
fn damaged_worlds_are_well_formed_as_by_a_plain_reading() {
    let mut random = Random::new(0x0DA3_A6ED);
    let (mut good, mut bad) = (0, 0);
    for _ in 0..2_000 {
        let session = session(&mut random);
        let whole = world(&mut random, &session);
        for _ in 0..10 {
            match compared(&damaged_world(&mut random, &whole)) {
                true => good += 1,
                false => bad += 1,
            }
        }
    }
    assert!(good > 4_000 && bad > 4_000, "{good} and {bad}");
}
