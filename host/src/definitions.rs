//! The definition store: ID and NS records, and their bytes, written out from document 01 ('The
//! records') and `crates/records/specs/Records.antt`.

use std::ops::Range;

use crate::paths::Kind;

/// ID, a constraint. `kind` is 0 unique, 1 key, 2 keyref.
#[derive(Debug, Clone, PartialEq, Eq)]
pub struct Constraint {
    pub kind: u8,
    pub name: String,
    pub refer: Option<String>,
    pub selector: String,
    pub fields: Vec<String>,
}

/// NS, a prefix binding. `target` is 0 schema-wide, 1 the selector of the latest ID, 2 + i field i.
#[derive(Debug, Clone, PartialEq, Eq)]
pub struct Binding {
    pub target: u8,
    pub prefix: String,
    pub uri: String,
}

#[derive(Debug, Clone, PartialEq, Eq)]
pub enum Record {
    Id(Constraint),
    Ns(Binding),
}

impl Constraint {
    /// The path that bindings with this target are for.
    pub fn path(&self, target: u8) -> &str {
        match target {
            1 => &self.selector,
            _ => &self.fields[usize::from(target) - 2],
        }
    }

    fn path_mut(&mut self, target: u8) -> &mut String {
        match target {
            1 => &mut self.selector,
            _ => &mut self.fields[usize::from(target) - 2],
        }
    }
}

/// Which of the two expressions the path with this target is.
pub fn kind_of(target: u8) -> Kind {
    match target {
        1 => Kind::Selector,
        _ => Kind::Field,
    }
}

impl Record {
    /// The mark, the body's length in two bytes, the low one first, and the body.
    pub fn bytes(&self) -> Vec<u8> {
        let (mark, body) = match self {
            Self::Id(constraint) => (b"ID", id_body(constraint)),
            Self::Ns(binding) => (b"NS", ns_body(binding)),
        };
        [&mark[..], &two_bytes(body.len()), &body].concat()
    }
}

fn id_body(constraint: &Constraint) -> Vec<u8> {
    let mut body = vec![constraint.kind];
    put_text(&mut body, &constraint.name);
    body.push(constraint.refer.is_some().into());
    if let Some(refer) = &constraint.refer {
        put_text(&mut body, refer);
    }
    put_text(&mut body, &constraint.selector);
    body.push(constraint.fields.len() as u8);
    for field in &constraint.fields {
        put_text(&mut body, field);
    }
    body
}

fn ns_body(binding: &Binding) -> Vec<u8> {
    let mut body = vec![binding.target];
    put_text(&mut body, &binding.prefix);
    put_text(&mut body, &binding.uri);
    body
}

/// A text is its length in two bytes, and its own.
pub fn put_text(bytes: &mut Vec<u8>, text: &str) {
    bytes.extend(two_bytes(text.len()));
    bytes.extend(text.as_bytes());
}

fn two_bytes(number: usize) -> [u8; 2] {
    u16::try_from(number)
        .expect("a number that two bytes hold")
        .to_le_bytes()
}

/// The records one behind the other.
pub fn store(records: &[Record]) -> Vec<u8> {
    records.iter().flat_map(Record::bytes).collect()
}

/// The constraints, in order.
pub fn constraints(records: &[Record]) -> impl Iterator<Item = &Constraint> {
    records.iter().filter_map(|record| match record {
        Record::Id(constraint) => Some(constraint),
        Record::Ns(_) => None,
    })
}

/// The records from the ID with this number, counting from 0, up to the next.
pub fn own_records(records: &[Record], number: usize) -> Range<usize> {
    let is_id = |at: &usize| matches!(records[*at], Record::Id(_));
    let mut ids = (0..records.len()).filter(is_id).skip(number);
    let start = ids.next().expect("a constraint");
    start..ids.next().unwrap_or(records.len())
}

/// The part of the store that has these.
pub fn own_part(records: &[Record], number: usize) -> Range<usize> {
    let own = own_records(records, number);
    let length = |records| store(records).len();
    length(&records[..own.start])..length(&records[..own.end])
}

/// The records with another path in the place of one.
pub fn with_path(records: &[Record], number: usize, target: u8, path: String) -> Vec<Record> {
    let mut records = records.to_vec();
    let mut constraints = records.iter_mut().filter_map(|record| match record {
        Record::Id(constraint) => Some(constraint),
        Record::Ns(_) => None,
    });
    let constraint = constraints.nth(number).expect("a constraint");
    *constraint.path_mut(target) = path;
    records
}

/// The records without the one at a place: a binding; or a constraint other than the one with this
/// number, and with it the bindings of its paths. The number is then another one.
pub fn without(records: &[Record], number: usize, at: usize) -> Option<(Vec<Record>, usize)> {
    let (before, rest) = (&records[..at], &records[at + 1..]);
    if let Record::Ns(_) = records[at] {
        return Some(([before, rest].concat(), number));
    }
    let removed = constraints(before).count();
    if removed == number {
        return None;
    }
    let next = rest
        .iter()
        .position(|record| matches!(record, Record::Id(_)));
    let (its_own, behind) = rest.split_at(next.unwrap_or(rest.len()));
    let schema_wide = its_own
        .iter()
        .filter(|record| matches!(record, Record::Ns(binding) if binding.target == 0));
    let kept = before.iter().chain(schema_wide).chain(behind);
    Some((
        kept.cloned().collect(),
        number - usize::from(removed < number),
    ))
}
