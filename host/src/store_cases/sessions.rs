//! Random sessions that are well formed, worlds that hold them, and worlds with something wrong.

use std::collections::BTreeSet;

use super::damage::{damaged, near};
use super::records::{definition_records, text};
use crate::model::bytes::{Text, write};
use crate::model::cells::Cell;
use crate::model::counts::{
    CELLS_MIN, Counts, DEPTH_MAX, EVENTS_MAX, NAMES_MIN, Numbers, PATHS_MIN, Stage,
};
use crate::model::definitions::{self, Definitions};
use crate::model::names::{NAME, Name};
use crate::model::records::{KEY_MAX, Record, TEXT_MAX};
use crate::model::reports::{self, Rp};
use crate::model::scopes::{SCOPES_MAX, Scope};
use crate::model::selections::{SELECTION, SELECTIONS_MAX, Selection};
use crate::model::session::{Session, World, field_counts};
use crate::model::tuples::{self, Tu};
use crate::random::Random;

/// A cell; an empty key is Set too.
pub fn cell(random: &mut Random) -> Cell {
    match random.below(8) {
        0 | 1 => Cell::Unset,
        2 | 3 => Cell::Set(text(random, KEY_MAX)),
        4 | 5 => Cell::SetNillable(text(random, KEY_MAX)),
        6 => Cell::NotSimple,
        _ => Cell::Multiple,
    }
}

/// A name of an open element.
pub fn name(random: &mut Random) -> Name {
    Name {
        space: text(random, TEXT_MAX),
        local: text(random, TEXT_MAX),
    }
}

/// A tuple of one of so many constraints and scopes. Keys repeat, and some stores hold what no session
/// writes: no fields, many fields, bytes that are no UTF-8.
pub fn tuple(random: &mut Random, constraints: usize, opened: u64) -> Tu {
    let fields = random.pick(&[1, 1, 1, 2, 2, 3, 4, 0, 9]);
    Tu {
        constraint: random.below(constraints) as u8,
        scope: random.below(opened.min(4) as usize + 1) as u32,
        keys: (0..fields).map(|_| key(random)).collect(),
    }
}

fn key(random: &mut Random) -> Text {
    match random.below(8) {
        0 => text(random, KEY_MAX),
        1 => vec![random.byte(); random.below(9)],
        _ => random.pick(&["", "a", "b", "ab", "ba", "TU"]).into(),
    }
}

/// A report of one of so many constraints, of any kind.
pub fn report(random: &mut Random, constraints: usize) -> Rp {
    Rp {
        kind: random.pick(&[1, 2, 3, 4, 5, 6, 6, 0, 255]),
        constraint: random.below(constraints) as u8,
        field: random.below(4) as u8,
        scope: random.number() as u32,
        event: random.below(9) as u32,
        tuple: random.number() as u32,
    }
}

/// A session that is well formed: before the first ES, during, or after FI.
pub fn session(random: &mut Random) -> Session {
    let mut definitions = Definitions::default();
    for record in definition_records(random) {
        definitions.define(record);
    }
    let stage = match random.below(8) {
        0 => Stage::Before,
        1 => Stage::Done,
        2 | 3 => Stage::During(DEPTH_MAX as u32),
        _ => Stage::During(random.below(12) as u32),
    };
    let events = random.pick(&[1, 2, 5, 40, 999_999, EVENTS_MAX]);
    let session = Session {
        definitions,
        stage,
        names: (0..stage.depth()).map(|_| name(random)).collect(),
        scopes: Vec::new(),
        selections: Vec::new(),
        opened: 0,
        events,
        tuples: Vec::new(),
        reports: Vec::new(),
        several_routes: false,
        nillable: false,
    };
    match stage {
        Stage::Before => session,
        _ => filled(random, session),
    }
}

/// With scopes, selections, tuples and reports, where a constraint is defined.
fn filled(random: &mut Random, mut session: Session) -> Session {
    let constraints = session.definitions.ids.len();
    session.opened = match random.below(3) {
        0 => 8 * session.events,
        _ => random.below(40).min(8 * session.events as usize) as u64,
    };
    if constraints == 0 {
        return session;
    }
    session.scopes = scopes(random, constraints, session.stage.depth(), session.opened);
    session.selections = selections(random, &session);
    let most = (32 * session.events as usize).min(random.pick(&[0, 3, 40, 64]));
    session.tuples = (0..most)
        .map(|_| tuple(random, constraints, session.opened))
        .collect();
    session.reports = (0..random.pick(&[0, 3, 40]))
        .map(|_| report(random, constraints))
        .collect();
    session
}

/// Open scopes that fit, few or as many as may be.
pub fn scopes(random: &mut Random, constraints: usize, depth: u32, opened: u64) -> Vec<Scope> {
    if depth == 0 || opened == 0 {
        return Vec::new();
    }
    let count = random.pick(&[0, 1, 3, SCOPES_MAX]).min(opened as usize);
    let mut numbers = BTreeSet::new();
    while numbers.len() < count {
        numbers.insert(1 + random.below(opened.min(50) as usize) as u32);
    }
    if random.once_in(4) && numbers.pop_last().is_some() {
        numbers.insert(opened as u32);
    }
    let mut depths: Vec<u32> = numbers
        .iter()
        .map(|_| 1 + random.below(depth as usize) as u32)
        .collect();
    depths.sort();
    let mut scope = |(number, depth)| Scope {
        constraint: random.below(constraints) as u32,
        number,
        depth,
    };
    numbers.into_iter().zip(depths).map(&mut scope).collect()
}

/// Selections of open elements by the open scopes, few or as many as may be.
fn selections(random: &mut Random, session: &Session) -> Vec<Selection> {
    let Session { scopes, stage, .. } = session;
    if scopes.is_empty() {
        return Vec::new();
    }
    let count = random.pick(&[0, 1, 6, SELECTIONS_MAX]);
    let mut pairs = BTreeSet::new();
    // Where there are few elements and scopes, there are not so many pairs.
    for _ in 0..8 * count {
        let scope = random.below(scopes.len());
        let above = stage.depth() - scopes[scope].depth;
        let depth = scopes[scope].depth + random.below(above as usize + 1) as u32;
        if pairs.len() < count {
            pairs.insert((depth, scope));
        }
    }
    let fields = field_counts(scopes, &session.definitions);
    let mut selection = |(depth, scope): (u32, usize)| Selection {
        scope,
        depth,
        cells: (0..fields[scope]).map(|_| cell(random)).collect(),
    };
    pairs.into_iter().map(&mut selection).collect()
}

// ---- worlds

/// The bytes of a store: the used ones, and others behind them.
fn store_of(random: &mut Random, used: &[u8]) -> Vec<u8> {
    let mut store = used.to_vec();
    let behind = random.pick(&[0, 1, 17, 100]);
    store.extend((0..behind).map(|_| random.byte()));
    store
}

fn area_of(random: &mut Random, least: usize) -> Vec<u8> {
    let length = least + random.pick(&[0, 0, 1, 600]);
    let fill = random.byte();
    vec![fill; length]
}

/// A world that holds a session, in stores and areas that may be longer than need be, with other bytes in
/// what is not used.
pub fn world(random: &mut Random, session: &Session) -> World {
    let definitions = definitions::store(&definition_order(&session.definitions));
    let tuples = tuples::store(&session.tuples);
    let reports = reports::store(&session.reports);
    let mut names = area_of(random, NAMES_MIN);
    for (place, name) in session.names.iter().enumerate() {
        write_name(random, &mut names[NAME * place..], name);
    }
    let mut cells = area_of(random, CELLS_MIN);
    for (place, selection) in session.selections.iter().enumerate() {
        write(&mut cells, SELECTION * place, &selection.bytes());
    }
    let mut scopes = session.scopes.clone();
    let junk = Scope {
        constraint: random.number() as u32,
        number: random.number() as u32,
        depth: random.number() as u32,
    };
    scopes.resize(SCOPES_MAX + random.below(2), junk);
    World {
        numbers: Numbers {
            events: session.events,
            running: session.counts().pack(),
            definitions: definitions.len() as u64,
            tuples: tuples.len() as u64,
            reports: reports.len() as u64,
        },
        definition_store: store_of(random, &definitions),
        tuple_store: store_of(random, &tuples),
        report_store: store_of(random, &reports),
        names,
        scopes,
        cells,
        path_area: PATHS_MIN + random.below(2),
        several_routes: false,
        nillable: false,
    }
}

/// Records that define these: each ID with its own bindings behind it, and the schema-wide ones before
/// and behind all.
fn definition_order(definitions: &Definitions) -> Vec<Record> {
    let schema = definitions.schema.iter().cloned().map(Record::Ns);
    let before = definitions.schema.len() / 2;
    let ids = definitions.ids.iter().flat_map(|it| {
        let own = it.own.iter().cloned().map(Record::Ns);
        [Record::Id(it.id.clone())].into_iter().chain(own)
    });
    let front = schema.clone().take(before);
    front.chain(ids).chain(schema.skip(before)).collect()
}

/// What stands behind the texts of a name is not looked at.
fn write_name(random: &mut Random, place: &mut [u8], name: &Name) {
    let bytes = name.bytes();
    if random.once_in(2) {
        write(place, 0, &bytes);
        return;
    }
    let (space, local) = (2 + name.space.len(), 2 + name.local.len());
    write(place, 0, &bytes[..space]);
    write(place, NAME / 2, &bytes[NAME / 2..NAME / 2 + local]);
}

// ---- something wrong

/// A world in which something may be wrong; it may also be well formed all the same.
pub fn damaged_world(random: &mut Random, world: &World) -> World {
    let mut world = world.clone();
    match random.below(8) {
        0 => damage_number(random, &mut world),
        1 => damage_counts(random, &mut world.numbers),
        2 => damage_scope(random, &mut world),
        3 => damage_length(random, &mut world),
        4 => {
            let depth = Counts::unpack(world.numbers.running).stage as usize;
            damage_places(random, &mut world.names, NAME, depth);
        }
        5 => {
            let count = Counts::unpack(world.numbers.running).selections as usize;
            damage_places(random, &mut world.cells, SELECTION, count);
        }
        _ => damage_store(random, &mut world),
    }
    world
}

/// A world with one bit changed: of a number, of the used bytes of a store, of the places of an area that
/// are in use or of the next one, or of a scope.
pub fn flipped_world(random: &mut Random, world: &World) -> World {
    let mut world = world.clone();
    let used = world.numbers;
    let counts = Counts::unpack(used.running);
    let names = NAME * (1 + counts.stage as usize);
    let cells = SELECTION * (1 + counts.selections as usize);
    match random.below(12) {
        0..=4 => flip_number(random, &mut world.numbers),
        5 | 6 => flip_byte(
            random,
            &mut world.definition_store,
            used.definitions as usize,
        ),
        7 => flip_byte(random, &mut world.tuple_store, used.tuples as usize),
        8 => flip_byte(random, &mut world.report_store, used.reports as usize),
        9 => flip_byte(random, &mut world.names, names),
        10 => flip_byte(random, &mut world.cells, cells),
        _ => flip_scope(random, &mut world.scopes, counts.scopes as usize),
    }
    world
}

fn flip_number(random: &mut Random, numbers: &mut Numbers) {
    let number = match random.below(6) {
        0 => &mut numbers.events,
        1 => &mut numbers.definitions,
        2 => &mut numbers.tuples,
        3 => &mut numbers.reports,
        _ => &mut numbers.running,
    };
    *number ^= 1 << random.below(40);
}

/// In the first bytes of an area, as far as they are there.
fn flip_byte(random: &mut Random, area: &mut [u8], first: usize) {
    let first = first.min(area.len());
    if first > 0 {
        area[random.below(first)] ^= 1 << random.below(8);
    }
}

/// Of one that is open, or of the next.
fn flip_scope(random: &mut Random, scopes: &mut [Scope], open: usize) {
    let Some(last) = scopes.len().checked_sub(1) else {
        return;
    };
    let scope = &mut scopes[random.below(1 + open.min(last))];
    let number = match random.below(3) {
        0 => &mut scope.constraint,
        1 => &mut scope.number,
        _ => &mut scope.depth,
    };
    *number ^= 1 << random.below(6);
}

fn damage_number(random: &mut Random, world: &mut World) {
    let lengths = world.lengths();
    let numbers = &mut world.numbers;
    let (number, limit) = match random.below(5) {
        0 => (&mut numbers.events, EVENTS_MAX),
        1 => {
            let least = Counts::unpack(numbers.running).opened.div_ceil(8);
            (&mut numbers.events, least)
        }
        2 => (&mut numbers.definitions, lengths.definitions as u64),
        3 => (&mut numbers.tuples, lengths.tuples as u64),
        _ => (&mut numbers.reports, lengths.reports as u64),
    };
    *number = match random.once_in(2) {
        true => near(random, limit),
        false => random.pick(&[number.wrapping_sub(1), *number + 1, u64::MAX]),
    };
}

fn damage_counts(random: &mut Random, numbers: &mut Numbers) {
    let mut counts = Counts::unpack(numbers.running);
    match random.below(5) {
        0 => counts.stage = random.pick(&[0, 1, counts.stage + 1, 65, 66, 67, 127]) % 128,
        1 => counts.scopes = random.pick(&[0, counts.scopes + 1, 15, 16, 17, 31]) % 32,
        2 => counts.selections = random.pick(&[0, counts.selections + 1, 31, 32, 33, 63]) % 64,
        3 => counts.opened = near(random, 8 * numbers.events),
        _ => counts.opened = random.below(3) as u64,
    }
    numbers.running = counts.pack();
}

fn damage_scope(random: &mut Random, world: &mut World) {
    let at = random.below(SCOPES_MAX);
    let opened = Counts::unpack(world.numbers.running).opened as u32;
    let depth = Counts::unpack(world.numbers.running).stage;
    let before = world.scopes[at.saturating_sub(1)];
    let scope = &mut world.scopes[at];
    let (number, values) = match random.below(3) {
        0 => (&mut scope.constraint, [0, 1, 31, 32]),
        1 => (&mut scope.number, [0, opened, opened + 1, before.number]),
        _ => (&mut scope.depth, [0, depth, before.depth, before.depth + 1]),
    };
    *number = match random.once_in(3) {
        true => number.wrapping_add(1),
        false => random.pick(&values),
    };
}

fn damage_length(random: &mut Random, world: &mut World) {
    let used = world.numbers;
    match random.below(7) {
        0 => world
            .definition_store
            .truncate(near(random, used.definitions) as usize),
        1 => world
            .tuple_store
            .truncate(near(random, used.tuples) as usize),
        2 => world
            .report_store
            .truncate(near(random, used.reports) as usize),
        3 => world.names.truncate(NAMES_MIN - random.below(2)),
        4 => world.scopes.truncate(SCOPES_MAX - random.below(2)),
        5 => world.cells.truncate(CELLS_MIN - random.below(2)),
        _ => world.path_area = PATHS_MIN - random.below(2),
    }
}

/// One byte of the first places of an area, most often one near the front of a place or of its half or
/// quarter, where lengths and states stand.
fn damage_places(random: &mut Random, area: &mut [u8], width: usize, count: usize) {
    let place = width * random.below(count.max(1));
    let parts = [0, width / 2, width / 4, 3 * (width / 4)];
    let within = match random.once_in(3) {
        true => random.below(width),
        false => random.pick(&parts) + random.below(3),
    };
    let byte = random.byte();
    if let Some(there) = area.get_mut(place + within) {
        *there = match random.below(3) {
            0 => there.wrapping_add(1),
            1 => *there ^ 1 << random.below(8),
            _ => byte,
        };
    }
}

/// The used bytes of a store damaged; the used length follows them.
fn damage_store(random: &mut Random, world: &mut World) {
    let World { numbers, .. } = world;
    let (store, length) = match random.below(3) {
        0 => (&mut world.definition_store, &mut numbers.definitions),
        1 => (&mut world.tuple_store, &mut numbers.tuples),
        _ => (&mut world.report_store, &mut numbers.reports),
    };
    let used = damaged(random, &store[..(*length as usize).min(store.len())]);
    *length = used.len() as u64;
    *store = used;
}
