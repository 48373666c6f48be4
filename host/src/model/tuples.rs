//! The tuple store: TU records one behind the other, which count from 1 ('The records', TU; 'The tree
//! definition', what a tuple is and when two are the same).

use std::ops::Range;

use super::bytes::{
    Text, part, put_four, put_text, put_two, read_all, standing, take_byte, take_bytes, take_four,
    take_frame, take_texts, take_two,
};
use super::cells::{CELL, cell_at};
use super::definitions::in_mask;
use super::records::FIELDS_MAX;

/// TU, a complete tuple: constraint, scope number, key texts in field order.
#[derive(Debug, Clone, PartialEq, Eq)]
pub struct Tu {
    pub constraint: u8,
    pub scope: u32,
    pub keys: Vec<Text>,
}

/// The bytes before the key texts: mark, length, constraint, scope number, field count.
pub const TU_HEAD: usize = 10;

impl Tu {
    /// Its bytes.
    pub fn bytes(&self) -> Vec<u8> {
        let body = self.body();
        let mut bytes = b"TU".to_vec();
        put_two(&mut bytes, body.len());
        bytes.extend(body);
        bytes
    }

    fn body(&self) -> Vec<u8> {
        let mut body = vec![self.constraint];
        put_four(&mut body, self.scope);
        body.push(self.keys.len().try_into().expect("a count of one byte"));
        for key in &self.keys {
            put_text(&mut body, key);
        }
        body
    }

    /// The TU at the front, with its stated length that of its parts. Count and texts are taken as
    /// they stand.
    pub fn take(rest: &mut &[u8]) -> Option<Self> {
        if take_bytes(rest, 2)? != b"TU" {
            return None;
        }
        let stated = usize::from(take_two(rest)?);
        let before = rest.len();
        let constraint = take_byte(rest)?;
        let scope = take_four(rest)?;
        let count = take_byte(rest)?;
        let keys = take_texts(rest, count)?;
        (before - rest.len() == stated).then_some(Self {
            constraint,
            scope,
            keys,
        })
    }
}

/// The bytes of TUs one behind the other.
pub fn store(tuples: &[Tu]) -> Vec<u8> {
    tuples.iter().flat_map(Tu::bytes).collect()
}

/// The TUs that the used bytes of a store are. Each is of a constraint that is defined and of a scope
/// that was opened, and they are not more than `most`.
pub fn read(used: &[u8], constraints: usize, opened: u64, most: u64) -> Option<Vec<Tu>> {
    let tuples = read_all(used, Tu::take)?;
    let fits = |tuple: &Tu| {
        usize::from(tuple.constraint) < constraints && u64::from(tuple.scope) <= opened
    };
    (tuples.iter().all(fits) && tuples.len() as u64 <= most).then_some(tuples)
}

/// The part of the store that shows a field, from 0, of TU `number`, from 1. A number that no TU or
/// field has gives the empty part. Nothing behind that TU has a say.
pub fn field_part(used: &[u8], number: u32, field: u32) -> Range<usize> {
    let mut at = 0;
    let mut rest = used;
    for counted in 1..=number {
        let Some(tuple) = Tu::take(&mut rest) else {
            return 0..0;
        };
        if counted == number {
            return field_in(at, &tuple, field as usize);
        }
        at = used.len() - rest.len();
    }
    0..0
}

/// A field of the TU that begins at a place: behind the head, the texts before it and its length.
fn field_in(at: usize, tuple: &Tu, field: usize) -> Range<usize> {
    let Some(key) = tuple.keys.get(field) else {
        return 0..0;
    };
    let before: usize = tuple.keys[..field].iter().map(|key| 2 + key.len()).sum();
    let start = at + TU_HEAD + before + 2;
    start..start + key.len()
}

/// The number, from 1, of the first TU with this scope and these texts; 0 where there is none.
pub fn find(tuples: &[Tu], scope: u32, keys: &[Text]) -> usize {
    let same = |tuple: &Tu| tuple.scope == scope && tuple.keys == keys;
    tuples.iter().position(same).map_or(0, |place| place + 1)
}

/// Whether a TU of one of the constraints of a set has these texts.
pub fn is_answered(tuples: &[Tu], named: u32, keys: &[Text]) -> bool {
    let answers = |tuple: &Tu| in_mask(named, tuple.constraint) && tuple.keys == keys;
    tuples.iter().any(answers)
}

/// The TU of a finished selection, of the keys of its first cells; it has four.
pub fn made_of(constraint: u8, scope: u32, cells: &[u8], fields: usize) -> Tu {
    let key = |field| cell_at(cells, CELL * field).key().into();
    Tu {
        constraint,
        scope,
        keys: (0..fields.min(FIELDS_MAX)).map(key).collect(),
    }
}

// ---- the same in any bytes, by the stated lengths of the records at their front

/// The number, from 1, of the first record that ends with this tail: from byte 5 on a TU has its scope,
/// its field count and its texts. 0 where there is none.
pub fn find_tail(used: &[u8], tail: &[u8]) -> usize {
    let records = standing(used, take_frame);
    let same = |record: &&[u8]| part(record, 5, record.len()) == tail;
    records.iter().position(same).map_or(0, |place| place + 1)
}

/// Whether a record of one of the constraints of a set ends with these texts: a TU has its constraint at
/// byte 4, and from byte 9 on its field count and its texts.
pub fn is_answered_in(used: &[u8], named: u32, texts: &[u8]) -> bool {
    let records = standing(used, take_frame);
    records.iter().any(|record| {
        let constraint = record.get(4).copied().unwrap_or(0);
        in_mask(named, constraint) && part(record, 9, record.len()) == texts
    })
}
