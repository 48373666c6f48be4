//! The tuple store: whether any bytes are tuples, the view of a field, look-ups, and the tuple of a
//! finished selection, against a plain reading of document 01.

use std::ops::Range;

use host::model::bytes::{Text, put_text, standing};
use host::model::cells::{CELL, Cell};
use host::model::tuples::{
    Tu, field_part, find, find_tail, is_answered, is_answered_in, made_of, read, store,
};
use host::random::Random;
use host::shrink::{shorter, shown, shrunk};
use host::store_cases::{
    assert_appends, assert_left, cell, cut_or_grown, damaged, lent, place, tuple,
};
use host::store_doors::{
    answered, append_bytes, field_place, find_tuple, make_tuple, tuple_field, tuples_read,
};
use host::tally::{Compared, Seen};
use host::texts;

/// So many constraints, and scopes opened, are there in most of these stores.
const CONSTRAINTS: usize = 3;
const OPENED: u64 = 4;

fn tuples(random: &mut Random) -> Vec<Tu> {
    let count = random.pick(&[0, 1, 2, 5, 12]);
    (0..count)
        .map(|_| tuple(random, CONSTRAINTS, OPENED))
        .collect()
}

/// The used bytes of a store, whole or damaged.
fn used(random: &mut Random) -> Vec<u8> {
    let bytes = store(&tuples(random));
    match random.below(5) {
        0 => cut_or_grown(random, &bytes),
        1 | 2 => damaged(random, &bytes),
        _ => bytes,
    }
}

/// The tuple of document 01's run, as `crates/session_spec/specs/Examples.antt` computes it.
#[test]
fn the_bytes_of_a_tuple_are_those_of_its_definition() {
    let tuple = Tu {
        constraint: 0,
        scope: 1,
        keys: vec![b"a".into()],
    };
    let bytes = [84, 85, 9, 0, 0, 1, 0, 0, 0, 1, 1, 0, 97];
    assert_eq!(tuple.bytes(), bytes);
    assert!(tuples_read(&bytes, 1, 1, 1));
    assert_eq!(field_place(&bytes, 1, 0), 12..13);
}

// ---- whether bytes are tuples

#[derive(Debug, Clone)]
struct Asked {
    used: Vec<u8>,
    constraints: usize,
    opened: u64,
    most: u64,
}

impl Asked {
    fn given(&self) -> bool {
        tuples_read(&self.used, self.constraints, self.opened, self.most)
    }

    fn due(&self) -> bool {
        read(&self.used, self.constraints, self.opened, self.most).is_some()
    }

    fn differs(&self) -> bool {
        self.given() != self.due()
    }

    fn smaller(&self) -> Box<dyn Iterator<Item = Self> + '_> {
        Box::new(shorter(&self.used).map(|used| Self {
            used,
            ..self.clone()
        }))
    }

    #[track_caller]
    fn compared(self) -> bool {
        if self.differs() {
            let small = shrunk(self, Self::smaller, Self::differs);
            let Self {
                constraints,
                opened,
                most,
                ..
            } = small;
            panic!(
                "given {}: {constraints} constraints, {opened} scopes, {most} tuples in {}",
                small.given(),
                shown(&small.used)
            );
        }
        self.due()
    }
}

#[test]
fn any_bytes_are_tuples_as_by_a_plain_reading() {
    let mut random = Random::new(0x7091);
    let mut read = Compared::default();
    for _ in 0..100_000 {
        let used = used(&mut random);
        let count = standing(&used, Tu::take).len() as u64;
        let asked = Asked {
            constraints: random.pick(&[CONSTRAINTS, CONSTRAINTS, 32, 2, 0, usize::MAX]),
            opened: random.pick(&[OPENED, OPENED, 3, 0, u64::MAX]),
            most: random.pick(&[count, count + 1, 32, count.saturating_sub(1), u64::MAX]),
            used,
        };
        let due = asked.clone().compared();
        read.take(asked.given(), due, asked);
    }
    read.assert_each_at_least(20_000);
}

/// Each byte of two tuples made each other byte.
#[test]
fn each_byte_of_a_tuple_counts_as_it_does_by_a_plain_reading() {
    let tuple = |keys: [&[u8]; 2]| Tu {
        constraint: 2,
        scope: 0x0102_0304,
        keys: keys.map(Into::into).into(),
    };
    let bytes = store(&[tuple([b"ab", b""]), tuple([b"", b"c"])]);
    let mut seen = Seen::default();
    for at in 0..bytes.len() {
        for byte in 0..=255 {
            let mut used = bytes.clone();
            used[at] = byte;
            let asked = Asked {
                used,
                constraints: 3,
                opened: 0x0102_0304,
                most: 2,
            };
            seen.take(asked.compared());
        }
    }
    seen.assert_each_at_least([true, false], 800);
    for cut in 0..bytes.len() {
        let asked = Asked {
            used: bytes[..cut].to_vec(),
            constraints: 3,
            opened: u64::MAX,
            most: 2,
        };
        assert_eq!(asked.compared(), cut == 0 || cut == bytes.len() / 2 + 1);
    }
}

/// As many as may be in document 01's 65,536 bytes, and one past each limit.
#[test]
fn a_full_store_is_read_to_its_last_tuple() {
    let tuple = |number: u32| Tu {
        constraint: 31,
        scope: number,
        keys: vec![format!("{number:06}").into_bytes()],
    };
    let tuples: Vec<Tu> = (1..=3_640).map(tuple).collect();
    let used = store(&tuples);
    assert_eq!(used.len(), 65_520);
    let asked = |constraints, opened, most| {
        let used = used.clone();
        Asked {
            used,
            constraints,
            opened,
            most,
        }
        .compared()
    };
    assert!(asked(32, 3_640, 3_640));
    assert!(!asked(31, 3_640, 3_640));
    assert!(!asked(32, 3_639, 3_640));
    assert!(!asked(32, 3_640, 3_639));
    let last = tuples.last().expect("a tuple");
    assert_eq!(find_tuple(&used, &last.bytes()[5..]), 3_640);
    assert_eq!(field_place(&used, 3_640, 0), 65_514..65_520);
    assert_eq!(field_place(&used, 3_641, 0), 0..0);
}

// ---- the view of a field

/// The part of a field by the door, and its text copied out.
#[track_caller]
fn compare_view(used: &[u8], number: u32, field: u32) -> Range<usize> {
    let due = field_part(used, number, field);
    let of = || format!("field {field} of tuple {number} in {}", shown(used));
    assert_eq!(field_place(used, number, field), due, "{}", of());
    let text = &used[due.clone()];
    let mut size = 0;
    let room = vec![0xEE; text.len() + 3];
    let given = lent(&room, |out| size = tuple_field(used, number, field, out));
    assert_eq!(size, text.len(), "{}", of());
    assert_left(&given, &[text, &[0xEE; 3]].concat(), of);
    due
}

#[test]
fn a_field_is_shown_where_it_stands_and_else_the_empty_part() {
    let mut random = Random::new(0xF1E1D);
    let (mut shown, mut empty) = (0, 0);
    for _ in 0..20_000 {
        let tuples = tuples(&mut random);
        let used = store(&tuples);
        let number = random.below(tuples.len() + 2) as u32;
        let field = random.pick(&[0, 1, 2, 3, 4, 8, u32::MAX]);
        let part = compare_view(&used, number, field);
        let tuple = (number as usize)
            .checked_sub(1)
            .and_then(|it| tuples.get(it));
        let key = tuple.and_then(|tuple| tuple.keys.get(field as usize));
        assert_eq!(used[part], *key.unwrap_or(&Text::new()));
        match key {
            Some(_) => shown += 1,
            None => empty += 1,
        }
    }
    assert!(shown > 3_000 && empty > 3_000, "{shown} and {empty}");
}

/// Nothing behind a tuple has a say in what is shown of it.
#[test]
fn fields_of_any_bytes_are_shown_as_far_as_tuples_stand_there() {
    let mut random = Random::new(0xF1E1);
    for _ in 0..40_000 {
        let used = used(&mut random);
        let standing = standing(&used, Tu::take).len() as u32;
        let number = random.pick(&[1, standing, standing + 1, 0, u32::MAX]);
        let field = random.below(4) as u32;
        let part = compare_view(&used, number, field);
        if (1..=standing).contains(&number) {
            let whole = &used[..used.len() - random.below(3).min(used.len() - part.end)];
            if standing == read_count(whole) {
                assert_eq!(compare_view(whole, number, field), part);
            }
        }
    }
}

fn read_count(used: &[u8]) -> u32 {
    standing(used, Tu::take).len() as u32
}

// ---- look-ups

/// The bytes that make two tuples the same: scope, field count and texts.
fn tail(scope: u32, keys: &[Text]) -> Vec<u8> {
    let tuple = Tu {
        constraint: 0,
        scope,
        keys: keys.into(),
    };
    tuple.bytes()[5..].to_vec()
}

/// Field count and texts.
fn texts_of(keys: &[Text]) -> Vec<u8> {
    let mut bytes = vec![keys.len() as u8];
    for key in keys {
        put_text(&mut bytes, key);
    }
    bytes
}

#[test]
fn a_tuple_is_found_by_its_scope_and_its_texts() {
    let mut random = Random::new(0xF1ED);
    let (mut found, mut not, mut later) = (0, 0, 0);
    let mut answers = Compared::default();
    for _ in 0..40_000 {
        let tuples = tuples(&mut random);
        let used = store(&tuples);
        let wanted = match tuples.len() {
            0 => tuple(&mut random, CONSTRAINTS, OPENED),
            count if random.once_in(2) => tuples[random.below(count)].clone(),
            _ => tuple(&mut random, CONSTRAINTS, OPENED),
        };
        let due = find(&tuples, wanted.scope, &wanted.keys);
        let given = find_tuple(&used, &tail(wanted.scope, &wanted.keys));
        assert_eq!(given, due, "{wanted:?} in {tuples:?}");
        match due {
            0 => not += 1,
            1 => found += 1,
            _ => later += 1,
        }
        let named = random.pick(&[0, 1, 2, 4, 7, u32::MAX, 1 << 31]);
        let due = is_answered(&tuples, named, &wanted.keys);
        let given = answered(&used, named, &texts_of(&wanted.keys));
        answers.take(given, due, (named, &wanted, &tuples));
    }
    assert!(
        found > 3_000 && not > 3_000 && later > 3_000,
        "{found}, {not}, {later}"
    );
    answers.assert_each_at_least(5_000);
}

/// Any bytes are looked through record by record, by the lengths that the records state.
#[test]
fn look_ups_in_any_bytes_go_by_the_stated_lengths() {
    let mut random = Random::new(0x100C);
    let mut found = Compared::default();
    let mut answers = Compared::default();
    for _ in 0..60_000 {
        let used = used(&mut random);
        let standing = standing(&used, Tu::take);
        let tuple = match standing.len() {
            0 => tuple(&mut random, CONSTRAINTS, OPENED),
            count => standing[random.below(count)].clone(),
        };
        let (mut tail, mut texts) = (tail(tuple.scope, &tuple.keys), texts_of(&tuple.keys));
        if random.once_in(2) {
            tail = cut_or_grown(&mut random, &tail);
            texts = cut_or_grown(&mut random, &texts);
        }
        let given = find_tuple(&used, &tail);
        let due = find_tail(&used, &tail);
        assert_eq!(given, due, "tail {} in {}", shown(&tail), shown(&used));
        found.take(given > 0, due > 0, &used);
        let named = random.pick(&[1, 7, u32::MAX]);
        let due = is_answered_in(&used, named, &texts);
        answers.take(answered(&used, named, &texts), due, (named, &texts, &used));
    }
    found.assert_each_at_least(5_000);
    answers.assert_each_at_least(5_000);
}

// ---- one more

/// The cells of a finished selection, or other bytes.
fn cells(random: &mut Random) -> Vec<u8> {
    match random.below(4) {
        0 => texts::raw(random, 600),
        1 => {
            let mut cells: Vec<u8> = (0..4).flat_map(|_| cell(random).bytes(3)).collect();
            cells.truncate(random.below(4 * CELL + 1));
            cells
        }
        _ => (0..4)
            .flat_map(|field| Cell::Set(vec![b'a' + field; random.pick(&[0, 1, 126])]).bytes(field))
            .collect(),
    }
}

#[test]
fn the_tuple_of_a_selection_has_the_keys_of_its_cells() {
    let mut random = Random::new(0x3A4E);
    let mut seen = Seen::default();
    for _ in 0..20_000 {
        let cells = cells(&mut random);
        let (constraint, scope) = (random.byte(), random.number() as u32);
        let fields = random.pick(&[1, 2, 3, 4, 0, 5, usize::MAX]);
        let due = made_of(constraint, scope, &cells, fields).bytes();
        let room = random.pick(&[522, 522, due.len(), due.len() - 1, 0]);
        let mut size = 0;
        let given = lent(&vec![0xEE; room], |out| {
            size = make_tuple(constraint, scope, &cells, fields, out);
        });
        let mut left = vec![0xEE; room];
        if due.len() <= room {
            left[..due.len()].copy_from_slice(&due);
        }
        let of = || {
            format!(
                "constraint {constraint}, scope {scope}, {fields} fields, {}",
                shown(&cells)
            )
        };
        assert_eq!(size, due.len(), "{}", of());
        assert_left(&given, &left, of);
        seen.take(due.len());
    }
    // Four keys of 126 bytes.
    seen.assert_each_at_least([522, 10], 50);
}

#[test]
fn bytes_are_appended_where_they_fit_and_else_nothing_changes() {
    let mut random = Random::new(0xA99B);
    let (mut appended, mut kept) = (0, 0);
    for _ in 0..40_000 {
        let before = texts::raw(&mut random, 60);
        let bytes = texts::raw(&mut random, 30);
        let used = place(&mut random, before.len(), 10);
        let door = |store: &mut [u8]| append_bytes(store, used, &bytes);
        match assert_appends(&before, used, &bytes, door) {
            true => appended += 1,
            false => kept += 1,
        }
    }
    assert!(appended > 5_000 && kept > 5_000, "{appended} and {kept}");
}
