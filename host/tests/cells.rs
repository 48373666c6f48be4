//! Field cells and selections in their area, of any bytes and any length: what is read there, and what
//! hits leave, against a plain reading of document 01.

use std::fmt;

use host::model::cells::{CELL, Cell, Hit, cell_at, hit_at};
use host::model::records::KEY_MAX;
use host::model::selections::{self, SELECTION, Selection, hit_each, open_at};
use host::random::Random;
use host::shrink::{shorter, shown, shrunk};
use host::store_cases::{assert_left, cell, difference, lent, place, text};
use host::store_doors;
use host::tally::Seen;

// ---- what the area holds

/// An area of at most so many bytes, with cells in it: as they are written, or with some bytes changed.
fn area(random: &mut Random, most: usize) -> Vec<u8> {
    let mut area = Vec::new();
    let length = random.below(most + 1);
    while area.len() < length {
        let more = random.below(32) as u8;
        area.extend(cell(random).bytes(more));
    }
    area.truncate(length);
    for _ in 0..random.below(6) {
        change(random, &mut area);
    }
    area
}

/// Most often the state or the length of a cell.
fn change(random: &mut Random, area: &mut [u8]) {
    let at = match random.once_in(3) {
        true => random.below(area.len() + 1),
        false => CELL * random.below(area.len() / CELL + 1) + random.below(2),
    };
    let byte = match random.once_in(2) {
        true => random.byte(),
        false => random.pick(&[0, 1, 2, 3, 4, 5, 6, 7, 126, 127, 128]),
    };
    if let Some(there) = area.get_mut(at) {
        *there = byte;
    }
}

/// A place of an area, and the area.
#[derive(Debug, Clone)]
struct Place {
    area: Vec<u8>,
    at: usize,
}

fn smaller(place: &Place) -> Box<dyn Iterator<Item = Place> + '_> {
    let at = place.at;
    Box::new(shorter(&place.area).map(move |area| Place { area, at }))
}

/// What differs of what is read at a place.
fn fault(Place { area, at }: &Place) -> Option<String> {
    let at = *at;
    let due = cell_at(area, at);
    let differs = |what, given: u32, due: u32| {
        (given != due).then(|| format!("{what} {given}, and {due} is due"))
    };
    differs(
        "state",
        store_doors::state_at(area, at).into(),
        due.state().into(),
    )
    .or_else(|| {
        let depth = store_doors::depth_at(area, at);
        differs("depth", depth, selections::depth_at(area, at))
    })
    .or_else(|| {
        let scope = store_doors::scope_at(area, at);
        differs("scope", scope, selections::scope_at(area, at))
    })
    .or_else(|| {
        let mut size = 0;
        let out = lent(&[0xEE; KEY_MAX], |out| {
            size = store_doors::key_at(area, at, out)
        });
        let key = due.key();
        let left = [key, &vec![0xEE; KEY_MAX - key.len()]].concat();
        (size != key.len() || out != left)
            .then(|| format!("key of {size} bytes, {}; due {}", shown(&out), shown(key)))
    })
}

#[track_caller]
fn compare_reading(place: Place) -> Cell {
    if fault(&place).is_some() {
        let small = shrunk(place, smaller, |place| fault(place).is_some());
        let fault = fault(&small).expect("it still differs");
        panic!("{fault}\nat {} of {}", small.at, shown(&small.area));
    }
    cell_at(&place.area, place.at)
}

#[test]
fn cells_are_read_at_any_place_of_any_bytes() {
    let mut random = Random::new(0xCE11);
    let mut seen = Seen::default();
    for _ in 0..20_000 {
        let area = area(&mut random, 900);
        for _ in 0..4 {
            let at = place(&mut random, area.len(), CELL);
            let read = compare_reading(Place {
                area: area.clone(),
                at,
            });
            seen.take((read.state(), !read.key().is_empty()));
        }
    }
    let all = [
        (0, false),
        (1, true),
        (1, false),
        (2, false),
        (3, false),
        (4, true),
        (4, false),
    ];
    seen.assert_each_at_least(all, 1_000);
}

/// Each pair of a state byte and a length, which are 1,024 and 256.
#[test]
fn every_head_of_a_cell_is_read_by_its_definition() {
    let mut cells = 0;
    for head in 0..=255 {
        for size in 0..=255 {
            let mut area = [0x61; CELL];
            (area[0], area[1]) = (head, size);
            let read = compare_reading(Place {
                area: area.to_vec(),
                at: 0,
            });
            let is_cell = head % 8 <= 4 && size <= 126;
            let state = if is_cell { head % 8 } else { 0 };
            assert_eq!(read.state(), state, "{head} {size}");
            cells += usize::from(state == 1 || state == 4);
        }
    }
    assert_eq!(cells, 2 * 32 * 127);
}

/// A key is handed out only where it fits.
#[test]
fn a_key_is_copied_to_the_front_of_what_is_lent_for_it() {
    let cell = Cell::Set(b"key".into()).bytes(9);
    for length in 0..6 {
        let mut size = 0;
        let out = lent(&vec![7; length], |out| {
            size = store_doors::key_at(&cell, 0, out)
        });
        let mut due = vec![7; length];
        if length >= 3 {
            due[..3].copy_from_slice(b"key");
        }
        assert_eq!((size, out), (3, due));
    }
}

// ---- what calls leave

#[test]
fn a_new_selection_is_blank_and_changes_nothing_else() {
    let mut random = Random::new(0x5E1E);
    let mut written = 0;
    for _ in 0..20_000 {
        let before = area(&mut random, 1_400);
        let at = place(&mut random, before.len(), CELL);
        let depth = random.pick(&[0, 1, 31, 32, 33, 64, 1023, 1024, u32::MAX]);
        let scope = random.pick(&[0, 1, 15, 16, 31, 32, u32::MAX]);
        let given = lent(&before, |area| {
            store_doors::open_selection(area, at, depth, scope);
        });
        let mut due = before.clone();
        open_at(&mut due, at, depth, scope);
        assert_left(&given, &due, || {
            format!(
                "depth {depth}, scope {scope}, at {at} of {}",
                shown(&before)
            )
        });
        if due != before {
            written += 1;
            assert_eq!(store_doors::depth_at(&given, at), depth % 1024);
            assert_eq!(store_doors::scope_at(&given, at), scope % 32);
        }
    }
    assert!(written > 3_000, "{written} were written");
}

/// A key, and some that are too long for a record.
fn key(random: &mut Random) -> Vec<u8> {
    match random.once_in(8) {
        true => vec![b'k'; random.pick(&[126, 127, 128, 300])],
        false => text(random, KEY_MAX),
    }
}

/// A hit on a cell of an area.
#[derive(Clone)]
struct Blow {
    area: Vec<u8>,
    at: usize,
    times: usize,
    simple: u8,
    key: Vec<u8>,
}

impl Blow {
    fn given(&self) -> Vec<u8> {
        let Self {
            at, times, simple, ..
        } = *self;
        lent(&self.area, |area| {
            store_doors::hit_cell(area, at, times, simple, &self.key);
        })
    }

    fn due(&self) -> Vec<u8> {
        let mut area = self.area.clone();
        let hit = Hit::new(self.simple, &self.key);
        hit_at(&mut area, self.at, self.times, &hit);
        area
    }

    fn smaller(&self) -> Box<dyn Iterator<Item = Self> + '_> {
        let areas = shorter(&self.area).map(|area| Self {
            area,
            ..self.clone()
        });
        let keys = shorter(&self.key).map(|key| Self {
            key,
            ..self.clone()
        });
        Box::new(areas.chain(keys))
    }
}

impl fmt::Debug for Blow {
    fn fmt(&self, out: &mut fmt::Formatter) -> fmt::Result {
        let Self {
            at, times, simple, ..
        } = self;
        let (area, key) = (shown(&self.area), shown(&self.key));
        write!(
            out,
            "{times} times, simple {simple}, key {key}, at {at} of {area}"
        )
    }
}

#[test]
fn a_hit_leaves_what_the_next_cell_is_written_as() {
    let mut random = Random::new(0x417);
    let mut seen = Seen::default();
    for _ in 0..60_000 {
        let area = area(&mut random, 400);
        let blow = Blow {
            at: place(&mut random, area.len(), CELL),
            area,
            times: random.pick(&[0, 0, 1, 1, 1, 2, 3, 255, usize::MAX]),
            simple: random.pick(&[0, 1, 1, 2, 2]),
            key: key(&mut random),
        };
        if blow.given() != blow.due() {
            let differs = |blow: &Blow| blow.given() != blow.due();
            let small = shrunk(blow, Blow::smaller, differs);
            panic!("{}\n{small:?}", difference(&small.given(), &small.due()));
        }
        let (before, after) = (cell_at(&blow.area, blow.at), cell_at(&blow.due(), blow.at));
        seen.take((before.state(), after.state()));
    }
    let changes = [
        (0, 0),
        (0, 1),
        (0, 2),
        (0, 3),
        (1, 1),
        (1, 3),
        (2, 2),
        (2, 3),
        (3, 3),
        (0, 4),
        (4, 4),
        (4, 3),
    ];
    seen.assert_each_at_least(changes, 300);
}

/// Some selections, behind them bytes that are none.
fn selection_area(random: &mut Random) -> Vec<u8> {
    let count = random.pick(&[0, 1, 2, 5, 32]);
    let mut area: Vec<u8> = (0..count)
        .flat_map(|_| {
            let selection = Selection {
                scope: random.below(16),
                depth: 1 + random.below(64) as u32,
                cells: (0..random.below(5)).map(|_| cell(random)).collect(),
            };
            selection.bytes()
        })
        .collect();
    area.extend((0..random.pick(&[0, 1, 127, 128, 300])).map(|_| random.byte()));
    if random.once_in(3) {
        change(random, &mut area);
    }
    area
}

#[test]
fn hits_on_all_selections_leave_what_hits_on_each_leave() {
    let mut random = Random::new(0x417A);
    let (mut changed, mut kept) = (0, 0);
    for _ in 0..8_000 {
        let before = selection_area(&mut random);
        let there = before.len() / SELECTION;
        let counts: Vec<u8> = (0..random.pick(&[0, there, there + 1, there + 3]))
            .map(|_| random.pick(&[0, 0, 1, 1, 2, 255]))
            .collect();
        let n = random.pick(&[counts.len(), counts.len() + 1, there, 1, 0, usize::MAX]);
        let field = random.pick(&[0, 1, 2, 3, 4, 5, usize::MAX]);
        let (simple, key) = (random.pick(&[0, 1, 1, 2, 2]), key(&mut random));
        let given = lent(&before, |area| {
            store_doors::hit_selections(area, n, field, &counts, simple, &key);
        });
        let mut due = before.clone();
        let taken = &counts[..n.min(counts.len())];
        hit_each(&mut due, taken, field, &Hit::new(simple, &key));
        assert_left(&given, &due, || {
            let (area, key) = (shown(&before), shown(&key));
            format!("field {field}, {n} of {counts:?}, simple {simple}, key {key}\n{area}")
        });
        match due == before {
            true => kept += 1,
            false => changed += 1,
        }
    }
    assert!(changed > 1_500 && kept > 1_500, "{changed} and {kept}");
}

/// The machine's words: a selection takes hits field by field.
#[test]
fn a_selection_keeps_depth_and_scope_through_hits() {
    let mut area = vec![0; 2 * SELECTION];
    store_doors::open_selection(&mut area, SELECTION, 64, 15);
    store_doors::hit_selections(&mut area, 2, 0, &[0, 1], 1, b"");
    store_doors::hit_selections(&mut area, 2, 2, &[0, 2], 1, b"a");
    store_doors::hit_selections(&mut area, 2, 1, &[0, 1], 2, b"b");
    store_doors::hit_selections(&mut area, 2, 3, &[0, 1], 0, b"a");
    let due = Selection {
        scope: 15,
        depth: 64,
        cells: vec![
            Cell::Set(vec![]),
            Cell::SetNillable(b"b".into()),
            Cell::Multiple,
            Cell::NotSimple,
        ],
    };
    assert_eq!(area[SELECTION..], due.bytes());
    assert_eq!(area[..SELECTION], [0; SELECTION]);
}
