//! The definition store: ID and NS records whole, one behind the other ('The records'; 12, 17 and 18
//! of 'Turned back because of the session').

use std::ops::Range;

use super::bytes::{Text, read_all, standing, take_byte, take_frame, take_text};
use super::records::{Id, Ns, Record, Refusal, parse};

/// A constraint and the bindings of its own paths, in order.
#[derive(Debug, Clone, PartialEq, Eq)]
pub struct Definition {
    pub id: Id,
    pub own: Vec<Ns>,
}

/// All constraints, which are numbered from 0, and the schema-wide bindings.
#[derive(Debug, Clone, Default, PartialEq, Eq)]
pub struct Definitions {
    pub ids: Vec<Definition>,
    pub schema: Vec<Ns>,
}

/// 18: how many constraints there may be.
pub const CONSTRAINTS_MAX: usize = 32;
/// 18: how many bindings of both sorts.
pub const BINDINGS_MAX: usize = 64;

/// What the definitions come to: how many constraints, how many fields the latest of them has, and how
/// many bindings of both sorts.
#[derive(Debug, Clone, Copy, Default, PartialEq, Eq)]
pub struct Tally {
    pub constraints: usize,
    pub fields: usize,
    pub bindings: usize,
}

impl Tally {
    /// What stands against an ID more: 18, a 33rd constraint.
    pub fn fault_of_id(self) -> Option<Refusal> {
        (self.constraints >= CONSTRAINTS_MAX).then_some(Refusal::DefinitionsFull)
    }

    /// What stands against an NS more, in document 01's order. 12: 1 or above before an ID, or past its
    /// fields; 17: a schema-wide prefix bound again; 18: a 65th binding.
    pub fn fault_of_ns(self, target: u8, is_bound: bool) -> Option<Refusal> {
        let past = self.constraints == 0 || usize::from(target) >= 2 + self.fields;
        if target > 0 && past {
            return Some(Refusal::Undefined);
        }
        if target == 0 && is_bound {
            return Some(Refusal::BoundTwice);
        }
        (self.bindings >= BINDINGS_MAX).then_some(Refusal::DefinitionsFull)
    }
}

impl Definitions {
    /// What they come to.
    pub fn tally(&self) -> Tally {
        let own = self.ids.iter().map(|it| it.own.len());
        Tally {
            constraints: self.ids.len(),
            fields: self.ids.last().map_or(0, |latest| latest.id.fields.len()),
            bindings: self.schema.len() + own.sum::<usize>(),
        }
    }

    /// What the definitions have against a record: 12, 17 and the counts of 18.
    pub fn fault(&self, record: &Record) -> Option<Refusal> {
        match record {
            Record::Id(_) => self.tally().fault_of_id(),
            Record::Ns(ns) => {
                let is_bound = self.schema.iter().any(|it| it.prefix == ns.prefix);
                self.tally().fault_of_ns(ns.target, is_bound)
            }
            Record::Es(es) => {
                let is_defined = |&number: &u8| usize::from(number) < self.ids.len();
                (!es.numbers.iter().all(is_defined)).then_some(Refusal::Undefined)
            }
            Record::Ee(_) | Record::Fi => None,
        }
    }

    /// One record more: an own binding goes to the latest ID. Other records define nothing.
    pub fn define(&mut self, record: Record) {
        match record {
            Record::Id(id) => self.ids.push(Definition {
                id,
                own: Vec::new(),
            }),
            Record::Ns(ns) if ns.target == 0 => self.schema.push(ns),
            Record::Ns(ns) => {
                let latest = self.ids.last_mut();
                latest.expect("12 comes before").own.push(ns);
            }
            Record::Es(_) | Record::Ee(_) | Record::Fi => {}
        }
    }

    /// The definitions that the used bytes of a store hold: each of its records is taken again as a
    /// new one is, and nothing may stand against it.
    pub fn read(used: &[u8]) -> Option<Self> {
        let mut definitions = Self::default();
        for record in read_all(used, take_frame)? {
            let record = parse(record).ok()?;
            if !matches!(record, Record::Id(_) | Record::Ns(_)) {
                return None;
            }
            if definitions.fault(&record).is_some() {
                return None;
            }
            definitions.define(record);
        }
        Some(definitions)
    }

    /// The numbers of the constraints that bear a name.
    pub fn named(&self, name: &[u8]) -> Vec<usize> {
        (0..self.ids.len())
            .filter(|&number| self.ids[number].id.name == name)
            .collect()
    }

    /// The numbers of the unique and key constraints that bear a name: those that a refer means.
    pub fn answering(&self, refer: &[u8]) -> Vec<usize> {
        let mut numbers = self.named(refer);
        numbers.retain(|&number| self.ids[number].id.kind < 2);
        numbers
    }
}

// ---- definitions in any bytes: the records at their front, as far as they are whole

fn is_id(record: &&[u8]) -> bool {
    record.starts_with(b"ID")
}

/// How many IDs there are, by their marks.
pub fn constraint_count(used: &[u8]) -> usize {
    standing(used, take_frame)
        .iter()
        .filter(|it| is_id(it))
        .count()
}

/// The stretch from the ID with this number up to the next ID: where its own bindings stand. Empty at 0
/// where there is no such ID.
pub fn own_stretch(used: &[u8], number: usize) -> Range<usize> {
    let mut at = 0;
    let mut ids = Vec::new();
    for record in standing(used, take_frame) {
        if is_id(&record) {
            ids.push(at);
        }
        at += record.len();
    }
    match ids.get(number) {
        Some(&start) => start..ids.get(number + 1).copied().unwrap_or(at),
        None => 0..0,
    }
}

/// The ID at the front of bytes.
pub fn id_at(own: &[u8]) -> Option<Id> {
    match parse(take_frame(&mut &*own)?) {
        Ok(Record::Id(id)) => Some(id),
        _ => None,
    }
}

/// Whether an NS binds this prefix for this target. What stands behind its parts is not looked at.
pub fn is_bound_in(used: &[u8], target: u8, prefix: &[u8]) -> bool {
    let binding = |record: &[u8]| {
        let mut body = record.strip_prefix(b"NS")?.get(2..)?;
        let target = take_byte(&mut body)?;
        let prefix = take_text(&mut body)?;
        take_text(&mut body)?;
        Some((target, prefix))
    };
    let records = standing(used, take_frame).into_iter();
    records
        .filter_map(binding)
        .any(|bound| bound == (target, prefix.into()))
}

// ---- sets of constraints

/// The set of constraint numbers, which are below 32: a bit for each.
pub fn mask(numbers: &[usize]) -> u32 {
    numbers.iter().fold(0, |mask, number| mask | 1 << number)
}

/// Whether a constraint number is in such a set.
pub fn in_mask(mask: u32, number: u8) -> bool {
    number < 32 && mask >> number & 1 == 1
}

/// The bytes of records one behind the other.
pub fn store(records: &[Record]) -> Vec<u8> {
    records.iter().flat_map(Record::bytes).collect()
}

/// The name of a constraint; empty where the number is not defined.
pub fn name_of(definitions: &Definitions, number: u8) -> Text {
    let definition = definitions.ids.get(usize::from(number));
    definition.map(|it| it.id.name.clone()).unwrap_or_default()
}
