//! Open scopes and open selections: whether they are as a session leaves them, against a plain reading of
//! document 01.

use host::model::cells::Cell;
use host::model::definitions::Definitions;
use host::model::scopes::{self, SCOPES_MAX, Scope};
use host::model::selections::{SELECTION, Selection, read};
use host::model::session::field_counts;
use host::random::Random;
use host::shrink::shrunk;
use host::store_cases::{damaged, definition_records, scopes as open_scopes, session};
use host::store_doors::{scopes_fit, selections_read};
use host::tally::{Compared, Seen};

// ---- scopes

/// One number of a scope made another one near it, or one of another scope.
fn change_scope(random: &mut Random, scopes: &mut [Scope]) {
    if scopes.is_empty() {
        return;
    }
    let other = scopes[random.below(scopes.len())];
    let at = random.below(scopes.len());
    let scope = &mut scopes[at];
    let (number, others) = match random.below(3) {
        0 => (&mut scope.constraint, other.constraint),
        1 => (&mut scope.number, other.number),
        _ => (&mut scope.depth, other.depth),
    };
    *number = match random.below(4) {
        0 => number.wrapping_add(1),
        1 => number.wrapping_sub(1),
        2 => others,
        _ => random.pick(&[0, u32::MAX]),
    };
}

#[test]
fn scopes_fit_as_by_a_plain_reading() {
    let mut random = Random::new(0x5C09);
    let mut fits = Compared::default();
    let mut full = Seen::default();
    for _ in 0..100_000 {
        let constraints = 1 + random.below(4);
        let depth = 1 + random.below(6) as u32;
        let opened = random.pick(&[1, 3, 16, 40, 8_000_000]);
        let mut list = open_scopes(&mut random, constraints, depth, opened);
        let count = list.len();
        if random.once_in(2) {
            change_scope(&mut random, &mut list);
        }
        // What is not open has no say.
        list.resize(SCOPES_MAX, list.first().copied().unwrap_or_default());
        let due = scopes::fit(&list[..count], constraints, depth, opened);
        let given = scopes_fit(
            &scopes::put(&list),
            count,
            constraints as u32,
            depth,
            opened,
        );
        fits.take(given, due, (&list[..count], constraints, depth, opened));
        full.take((count == SCOPES_MAX, due));
    }
    fits.assert_each_at_least(10_000);
    full.assert_each_at_least([(true, true), (true, false)], 100);
}

/// Of sixteen places no more are open; a scope whose bytes are not there is one of zeros.
#[test]
fn no_more_than_sixteen_scopes_are_looked_at() {
    let scope = |number| Scope {
        constraint: 0,
        number,
        depth: 1,
    };
    let scopes: Vec<Scope> = (1..=17).map(scope).collect();
    let bytes = scopes::put(&scopes);
    for count in [16, 17, usize::MAX] {
        assert!(scopes_fit(&bytes, count, 1, 1, 16));
        assert!(!scopes_fit(&bytes, count, 1, 1, 15));
    }
    assert!(!scopes_fit(&bytes[..16 * 12 - 4], 16, 1, 1, 16));
    assert!(scopes_fit(&bytes[..15 * 12], 15, 1, 1, 15));
    assert!(scopes_fit(&[], 0, 0, 0, 0));
}

// ---- selections

/// What the test of selections is handed.
#[derive(Debug, Clone)]
struct Asked {
    cells: Vec<u8>,
    count: usize,
    scopes: Vec<Scope>,
    fields: Vec<u8>,
    depth: u32,
}

impl Asked {
    /// Those of a session that is well formed.
    fn new(random: &mut Random) -> Self {
        let session = session(random);
        Self {
            cells: session
                .selections
                .iter()
                .flat_map(|it| it.bytes())
                .collect(),
            count: session.selections.len(),
            fields: field_counts(&session.scopes, &session.definitions),
            scopes: session.scopes,
            depth: session.stage.depth(),
        }
    }

    fn given(&self) -> bool {
        let (scopes, count) = (scopes::put(&self.scopes), self.scopes.len());
        selections_read(
            &self.cells,
            self.count,
            &scopes,
            count,
            &self.fields,
            self.depth,
        )
    }

    fn due(&self) -> bool {
        read(
            &self.cells,
            self.count,
            &self.scopes,
            &self.fields,
            self.depth,
        )
        .is_some()
    }

    /// Without one of its selections, or without its last scope.
    fn smaller(&self) -> Box<dyn Iterator<Item = Self> + '_> {
        let fewer = (0..self.count).map(|place| {
            let mut fewer = self.clone();
            let at = SELECTION * place;
            fewer
                .cells
                .drain(at.min(fewer.cells.len())..(at + SELECTION).min(fewer.cells.len()));
            fewer.count -= 1;
            fewer
        });
        let scopes = (!self.scopes.is_empty()).then(|| {
            let mut fewer = self.clone();
            fewer.scopes.pop();
            fewer
        });
        Box::new(fewer.chain(scopes))
    }

    fn differs(&self) -> bool {
        self.given() != self.due()
    }

    fn shown(&self) -> String {
        let heads = |cells: &[u8]| -> Vec<Vec<u8>> {
            cells
                .chunks(128)
                .map(|cell| cell[..cell.len().min(6)].into())
                .collect()
        };
        format!(
            "{} selections at depth {}, {:?}, fields {:?}, cells {:?}",
            self.count,
            self.depth,
            self.scopes,
            self.fields,
            heads(&self.cells)
        )
    }

    #[track_caller]
    fn compared(&self) -> bool {
        if self.differs() {
            let small = shrunk(self.clone(), Self::smaller, Self::differs);
            panic!("given {}: {}", small.given(), small.shown());
        }
        self.due()
    }
}

#[test]
fn the_selections_of_a_session_read() {
    let mut random = Random::new(0x5E1);
    let mut counts = Seen::default();
    for _ in 0..4_000 {
        let asked = Asked::new(&mut random);
        assert!(asked.compared(), "{}", asked.shown());
        counts.take(asked.count.min(8));
    }
    counts.assert_each_at_least([0, 1, 6, 8], 100);
}

/// One thing changed: a byte, a count, a scope, a number of fields, the depth.
fn change(random: &mut Random, asked: &mut Asked) {
    let length = asked.cells.len();
    match random.below(9) {
        0 => change_scope(random, &mut asked.scopes),
        1 => asked.depth = asked.depth.wrapping_add(random.pick(&[1, u32::MAX])),
        2 => asked.count = random.pick(&[asked.count + 1, asked.count.saturating_sub(1)]),
        3 if !asked.fields.is_empty() => {
            let at = random.below(asked.fields.len());
            asked.fields[at] = random.pick(&[0, 1, 2, 3, 4, 5, 255]);
        }
        4 => drop(asked.fields.pop()),
        5 if length >= 2 * SELECTION => {
            let at = SELECTION * random.below(length / SELECTION - 1);
            asked.cells[at..at + 2 * SELECTION].rotate_left(SELECTION);
        }
        6 => asked.cells = damaged(random, &asked.cells),
        _ if length > 0 => {
            let at = match random.once_in(3) {
                true => random.below(length),
                false => 128 * random.below(length / 128) + random.pick(&[0, 0, 1, 2, 127]),
            };
            asked.cells[at] = match random.below(3) {
                0 => asked.cells[at] ^ 1 << random.below(8),
                1 => asked.cells[at].wrapping_add(8),
                _ => random.byte(),
            };
        }
        _ => {}
    }
}

#[test]
fn changed_selections_read_as_by_a_plain_reading() {
    let mut random = Random::new(0xC4A6);
    let (mut read, mut not) = (0, 0);
    for _ in 0..6_000 {
        let asked = Asked::new(&mut random);
        for _ in 0..6 {
            let mut changed = asked.clone();
            change(&mut random, &mut changed);
            match changed.compared() {
                true => read += 1,
                false => not += 1,
            }
        }
    }
    assert!(read > 4_000 && not > 4_000, "{read} and {not}");
}

/// Every bit of three selections turned round: most of what is left is not what is written.
#[test]
fn each_byte_of_a_selection_is_exactly_as_it_is_written() {
    let scope = |number, depth| Scope {
        constraint: 0,
        number,
        depth,
    };
    let selections = [
        Selection::new(0, 1, &[Cell::Set(b"ab".into()), Cell::Unset]),
        Selection::new(0, 33, &[Cell::Multiple, Cell::NotSimple]),
        Selection::new(1, 33, &[Cell::SetNillable(b"a".into())]),
    ];
    let mut asked = Asked {
        cells: selections.iter().flat_map(Selection::bytes).collect(),
        count: 3,
        scopes: vec![scope(4, 1), scope(9, 2)],
        fields: vec![2, 1],
        depth: 40,
    };
    assert!(asked.compared());
    let mut still = 0;
    for at in 0..asked.cells.len() {
        for bit in 0..8 {
            asked.cells[at] ^= 1 << bit;
            still += usize::from(asked.compared());
            asked.cells[at] ^= 1 << bit;
        }
    }
    // Other states and depths that are in order, the bits of a key, a key that is longer by zeros.
    assert!((16..80).contains(&still), "{still} changes still read");
}

/// No more fields than the constraint has: the cells behind them are blank.
#[test]
fn definitions_say_how_many_cells_may_be_hit() {
    let mut random = Random::new(0xF1E5);
    for _ in 0..200 {
        let mut definitions = Definitions::default();
        for record in definition_records(&mut random) {
            definitions.define(record);
        }
        let Some(fields) = definitions.ids.first().map(|it| it.id.fields.len()) else {
            continue;
        };
        let scope = Scope {
            constraint: 0,
            number: 1,
            depth: 1,
        };
        for cell in 0..4 {
            let mut cells = vec![0; SELECTION];
            (cells[0], cells[128 * cell]) = (8, if cell == 0 { 11 } else { 3 });
            let asked = Asked {
                cells,
                count: 1,
                scopes: vec![scope],
                fields: field_counts(&[scope], &definitions),
                depth: 1,
            };
            assert_eq!(asked.compared(), cell < fields);
        }
    }
}
