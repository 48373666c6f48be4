//! The record call: the refusals in document 01's order, and the bytes of every store and area after a
//! record that is taken. On a refusal nothing changes.

use super::bytes::write;
use super::counts::{DEPTH_MAX, EVENTS_MAX, Stage};
use super::names::write_behind;
use super::records::{Record, Refusal, parse};
use super::reports::{self, Rp, append};
use super::scopes::SCOPES_MAX;
use super::selections::{SELECTIONS_MAX, Selection};
use super::session::{Session, World};
use super::tuples::{self, Tu};

/// What a record brings: the session before and after it, and what is added to each store.
struct Taken {
    before: Session,
    after: Session,
    definitions: Vec<u8>,
    tuples: Vec<u8>,
    reports: Vec<u8>,
}

impl World {
    /// Takes a record, and answers 0; or the refusal's number. What the path area holds after a record
    /// that is taken is free.
    pub fn step(&mut self, record: &[u8]) -> u32 {
        match self.judged(record) {
            Ok(taken) => {
                self.put(&taken);
                0
            }
            Err(refusal) => refusal.number().into(),
        }
    }

    /// What a record brings, or the first refusal that meets it.
    fn judged(&self, bytes: &[u8]) -> Result<Taken, Refusal> {
        let before = self.decode().ok_or(Refusal::Unfit)?;
        let record = parse(bytes)?;
        if let Some(refusal) = before.fault(&record) {
            return Err(refusal);
        }
        let is_definition = matches!(record, Record::Id(_) | Record::Ns(_));
        let after = before.after(&record);
        let taken = Taken {
            definitions: if is_definition { bytes } else { &[] }.into(),
            tuples: tuples::store(added::<Tu>(&before.tuples, &after.tuples)),
            reports: reports::store(added::<Rp>(&before.reports, &after.reports)),
            before,
            after,
        };
        match self.lacks_room(&taken) {
            Some(refusal) => Err(refusal),
            None => Ok(taken),
        }
    }

    /// 18, 14, 20, 21, 15 and 16: what the record brings exceeds what is left.
    fn lacks_room(&self, taken: &Taken) -> Option<Refusal> {
        let numbers = self.numbers;
        let exceeds =
            |store: &[u8], used: u64, more: &[u8]| more.len() > store.len() - used as usize;
        let definitions = &self.definition_store;
        if exceeds(definitions, numbers.definitions, &taken.definitions) {
            return Some(Refusal::DefinitionsFull);
        }
        let after = &taken.after;
        if after.names.len() > DEPTH_MAX {
            return Some(Refusal::TooDeep);
        }
        if after.scopes.len() > SCOPES_MAX {
            return Some(Refusal::TooManyScopes);
        }
        if after.selections.len() > SELECTIONS_MAX {
            return Some(Refusal::TooManySelections);
        }
        if exceeds(&self.tuple_store, numbers.tuples, &taken.tuples) {
            return Some(Refusal::TuplesFull);
        }
        exceeds(&self.report_store, numbers.reports, &taken.reports).then_some(Refusal::ReportsFull)
    }

    /// What is new stands behind what was used; what is no longer open keeps its bytes. All open
    /// selections are written, since any may have been hit.
    fn put(&mut self, taken: &Taken) {
        let Taken { before, after, .. } = taken;
        let numbers = &mut self.numbers;
        let add = |store: &mut [u8], used: &mut u64, more: &[u8]| {
            *used = append(store, *used as usize, more) as u64;
        };
        add(
            &mut self.definition_store,
            &mut numbers.definitions,
            &taken.definitions,
        );
        add(&mut self.tuple_store, &mut numbers.tuples, &taken.tuples);
        add(&mut self.report_store, &mut numbers.reports, &taken.reports);
        numbers.events = after.events;
        numbers.running = after.counts().pack();
        let depth = before.names.len();
        for name in added(&before.names, &after.names) {
            write_behind(&mut self.names, depth as u32, name);
        }
        let opened = added(&before.scopes, &after.scopes);
        self.scopes[before.scopes.len()..][..opened.len()].copy_from_slice(opened);
        let selections = after.selections.iter().flat_map(Selection::bytes);
        write(&mut self.cells, 0, &selections.collect::<Vec<u8>>());
        self.several_routes |= after.several_routes;
        self.nillable |= after.nillable;
    }
}

/// What a list has behind what it had before; nothing where it became shorter.
fn added<'a, T>(before: &[T], after: &'a [T]) -> &'a [T] {
    after.get(before.len()..).unwrap_or(&[])
}

impl Session {
    /// What the session has against a record before it is taken, in document 01's order: 11, 19, 12, 13,
    /// 17 and the counts of 18.
    fn fault(&self, record: &Record) -> Option<Refusal> {
        let is_definition = matches!(record, Record::Id(_) | Record::Ns(_));
        let misplaced = match self.stage {
            Stage::Before => false,
            Stage::During(_) => is_definition,
            Stage::Done => true,
        };
        if misplaced {
            return Some(Refusal::OutOfPlace);
        }
        if self.events >= EVENTS_MAX {
            return Some(Refusal::TooManyEvents);
        }
        let unbalanced = match record {
            Record::Ee(_) => self.names.is_empty(),
            Record::Fi => !self.names.is_empty(),
            Record::Id(_) | Record::Ns(_) | Record::Es(_) => false,
        };
        // 12 is of an NS or an ES, 13 of an EE or an FI, 17 of an NS: no record meets 13 and another.
        match unbalanced {
            true => Some(Refusal::Unbalanced),
            false => self.definitions.fault(record),
        }
    }
}
