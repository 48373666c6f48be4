//! Measures the doors to full stores beside plain Rust loops over the same bytes, by the same driver, and
//! prints the time of a call. docs/PERFORMANCE.md says what is measured.

use std::fmt::Debug;
use std::hint::black_box;
use std::time::{Duration, Instant};

use host::model::cells::Cell;
use host::model::counts::{Numbers, Stage};
use host::model::definitions::Definitions;
use host::model::names::Name;
use host::model::records::{Id, Ns, Record};
use host::model::reports::{self, Rp};
use host::model::scopes::{self, SCOPES_MAX, Scope};
use host::model::selections::Selection;
use host::model::session::{Session, World};
use host::model::tuples::{self, Tu};
use host::random::Random;
use host::store_cases;
use host::store_doors::{self, Lent};
use host::times::Times;

#[path = "bench_stores/plain.rs"]
mod plain;

/// A store is full with so many tuples of one key of six bytes, or with so many reports: 65,520 bytes.
const COUNT: u32 = 3_640;

/// How often each side is measured, and for how long at least.
const ROUNDS: usize = 21;
const ROUND: Duration = Duration::from_millis(20);

fn main() {
    println!("µs for a call: the lowest of {ROUNDS} rounds, and their mean");
    println!(
        "{:<34} {:>7}  {:>16}  {:>16}  {:>9}",
        "call", "bytes", "Rust", "door", "door/Rust"
    );
    bench_tuples();
    bench_reports();
    bench_whole();
}

/// Look-ups go through all tuples: the last one is found, or none.
fn bench_tuples() {
    let tuples: Vec<Tu> = (1..=COUNT).map(tuple).collect();
    let used = tuples::store(&tuples);
    let last = tuple(COUNT).bytes();
    let none = tuple(COUNT + 1).bytes();
    for (name, wanted) in [("find_tuple, the last", &last), ("find_tuple, none", &none)] {
        compare(
            name,
            &used[..],
            |used| plain::find_tuple(used, &wanted[5..]),
            |used| store_doors::find_tuple(used, &wanted[5..]),
        );
    }
    compare(
        "answered, none",
        &used[..],
        |used| plain::answered(used, u32::MAX, &none[9..]),
        |used| store_doors::answered(used, u32::MAX, &none[9..]),
    );
    compare(
        "tuples_read",
        &used[..],
        |used| plain::tuples_read(used, 32, COUNT.into(), COUNT.into()),
        |used| store_doors::tuples_read(used, 32, COUNT.into(), COUNT.into()),
    );
}

fn tuple(number: u32) -> Tu {
    Tu {
        constraint: (number % 32) as u8,
        scope: 7,
        keys: vec![format!("{number:06}").into_bytes()],
    }
}

/// No report is of kind 6.
fn report(number: u32) -> Rp {
    Rp {
        kind: 1 + (number % 5) as u8,
        constraint: (number % 32) as u8,
        field: 0,
        scope: number,
        event: number,
        tuple: number,
    }
}

fn bench_reports() {
    let list: Vec<Rp> = (1..=COUNT).map(report).collect();
    let used = reports::store(&list);
    compare(
        "reports_read",
        &used[..],
        |used| plain::reports_read(used, 32),
        |used| store_doors::reports_read(used, 32),
    );
    compare(
        "told, none",
        &used[..],
        |used| plain::told(used, u32::MAX),
        |used| store_doors::told(used, u32::MAX),
    );
}

/// Definitions alone, and the whole test of a world that is as full as may be. Before anything is timed,
/// both sides must agree on damaged worlds too.
fn bench_whole() {
    let mut random = Random::new(0xBE9C);
    for _ in 0..200 {
        let session = store_cases::session(&mut random);
        let whole = store_cases::world(&mut random, &session);
        let damaged = store_cases::damaged_world(&mut random, &whole);
        for world in [&whole, &damaged] {
            // The door is lent sixteen scopes, never fewer.
            if world.scopes.len() >= SCOPES_MAX {
                let due = plain::well_formed(world);
                assert_eq!(door(world), due, "{:?}", world.numbers);
            }
        }
    }
    let world = full_world();
    compare(
        "read_definitions",
        &world.definition_store[..world.numbers.definitions as usize],
        plain::definitions_read,
        |used| store_doors::read_definitions(used).is_some(),
    );
    compare("well_formed", &world, plain::well_formed, door);
}

/// The scopes are handed to the door as bytes, and are made bytes in its time.
fn door(world: &World) -> bool {
    store_doors::well_formed(Lent::of(world, &scopes::put(&world.scopes[..SCOPES_MAX])))
}

/// 32 constraints, 64 bindings, 64 open elements, 16 scopes, 32 selections, and both output stores full.
fn full_world() -> World {
    let mut definitions = Definitions::default();
    for number in 0..32 {
        definitions.define(Record::Id(Id {
            kind: number % 3,
            name: format!("constraint-{number}").into(),
            flag: 0,
            refer: None,
            selector: b".//fin:ledger/fin:voucher|.//fin:reversal".into(),
            fields: vec![b"fin:header/@number".into(), b"@period".into()],
        }));
        for target in [1, 2] {
            definitions.define(Record::Ns(Ns {
                target,
                prefix: b"fin".into(),
                uri: b"urn:example:finance".into(),
            }));
        }
    }
    let name = Name {
        space: b"urn:example:finance".into(),
        local: b"voucher".into(),
    };
    let cell = |key: &str| Cell::Set(key.into());
    let session = Session {
        definitions,
        stage: Stage::During(64),
        names: vec![name; 64],
        scopes: (0..16)
            .map(|place| Scope {
                constraint: 2 * place,
                number: 1 + place,
                depth: 1 + place,
            })
            .collect(),
        selections: (0..32)
            .map(|place| Selection {
                scope: place % 16,
                depth: 20 + place as u32 / 16,
                cells: vec![cell("2025-001234"), cell("2025-12")],
            })
            .collect(),
        opened: COUNT.into(),
        events: COUNT.into(),
        tuples: (1..=COUNT).map(tuple).collect(),
        reports: (1..=COUNT).map(report).collect(),
        several_routes: false,
        nillable: false,
    };
    store_cases::world(&mut Random::new(0xF011), &session)
}

/// Measures both sides in turns, so that what slows the machine slows both, and prints a row. Both must
/// give the same answer.
fn compare<I: Size + ?Sized, T: PartialEq + Debug>(
    name: &str,
    input: &I,
    rust: impl Fn(&I) -> T,
    door: impl Fn(&I) -> T,
) {
    assert_eq!(rust(input), door(input), "{name}");
    let (mut rusts, mut doors) = (Times::default(), Times::default());
    for _ in 0..ROUNDS {
        rusts.add(round(input, &rust));
        doors.add(round(input, &door));
    }
    println!(
        "{name:<34} {:>7}  {:>16}  {:>16}  {:>9.2}",
        input.size(),
        text(&rusts),
        text(&doors),
        doors.lowest() / rusts.lowest(),
    );
}

/// Calls again and again until the round's time is over: µs for one.
fn round<I: ?Sized, T>(input: &I, call: impl Fn(&I) -> T) -> f64 {
    let mut calls = 0;
    let began = Instant::now();
    while began.elapsed() < ROUND {
        for _ in 0..16 {
            black_box(call(black_box(input)));
        }
        calls += 16;
    }
    began.elapsed().as_nanos() as f64 / 1000.0 / f64::from(calls)
}

/// How many bytes a call goes over.
trait Size {
    fn size(&self) -> usize;
}

impl Size for [u8] {
    fn size(&self) -> usize {
        self.len()
    }
}

/// The used bytes of the stores, and those of the open names and selections.
impl Size for World {
    fn size(&self) -> usize {
        let Numbers {
            definitions,
            tuples,
            reports,
            ..
        } = self.numbers;
        (definitions + tuples + reports) as usize + 64 * 514 + 32 * 512
    }
}

/// The lowest round, and the mean.
fn text(times: &Times) -> String {
    format!("{:.2} ({:.2})", times.lowest(), times.mean())
}
