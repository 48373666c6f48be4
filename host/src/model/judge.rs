//! What a finished selection comes to, and the keyrefs at FI ('The tree definition', from 'A selection
//! finishes' on): the tuples and reports of each kind.

use super::bytes::Text;
use super::cells::Cell;
use super::counts::Stage;
use super::definitions::mask;
use super::reports::Rp;
use super::scopes::Scope;
use super::session::Session;
use super::tuples::{Tu, find, is_answered};

/// The kinds of report about a finished selection, and about a keyref that nothing answers.
const SEVERAL_NODES: u8 = 1;
const NO_SIMPLE_VALUE: u8 = 2;
const MISSING: u8 = 3;
const DUPLICATE: u8 = 4;
const UNANSWERED: u8 = 5;
/// Document 02, U9.
const NILLABLE: u8 = 7;

/// The kinds of constraint.
const KEY: u8 = 1;
const KEYREF: u8 = 2;

/// A selection that finishes, with the scope that selected the element.
pub struct Finished {
    pub scope: Scope,
    pub cells: Vec<Cell>,
}

/// What the cells of a selection come to.
#[derive(Debug, Clone, PartialEq, Eq)]
pub enum Outcome {
    /// Some field is Multiple.
    SeveralNodes,
    /// Else some field is NotSimple.
    NoSimpleValue,
    /// Else some field is Unset, this one the lowest.
    Missing(usize),
    /// Else every field is Set, to these keys, and this is the lowest on an element declared nillable.
    Nillable(usize, Vec<Text>),
    /// Else every field is Set, to these keys.
    Complete(Vec<Text>),
}

impl Outcome {
    pub fn of(cells: &[Cell]) -> Self {
        if cells.contains(&Cell::Multiple) {
            return Self::SeveralNodes;
        }
        if cells.contains(&Cell::NotSimple) {
            return Self::NoSimpleValue;
        }
        if let Some(field) = cells.iter().position(|cell| *cell == Cell::Unset) {
            return Self::Missing(field);
        }
        let keys = cells.iter().map(|cell| cell.key().into()).collect();
        let is_nillable = |cell: &Cell| matches!(cell, Cell::SetNillable(_));
        match cells.iter().position(is_nillable) {
            Some(field) => Self::Nillable(field, keys),
            None => Self::Complete(keys),
        }
    }
}

impl Session {
    /// A finished selection's tuple or report.
    pub(super) fn judge(&mut self, finished: &Finished) {
        let scope = finished.scope;
        let kind = self.definitions.ids[scope.constraint as usize].id.kind;
        match Outcome::of(&finished.cells) {
            Outcome::SeveralNodes => self.report(scope, SEVERAL_NODES, 0, 0),
            Outcome::NoSimpleValue => self.report(scope, NO_SIMPLE_VALUE, 0, 0),
            Outcome::Missing(field) if kind == KEY => self.report(scope, MISSING, field, 0),
            Outcome::Missing(_) => {}
            Outcome::Nillable(field, _) if kind == KEY => self.report(scope, NILLABLE, field, 0),
            Outcome::Nillable(_, keys) | Outcome::Complete(keys) => {
                self.judge_tuple(scope, kind, keys)
            }
        }
    }

    /// A complete tuple.
    fn judge_tuple(&mut self, scope: Scope, kind: u8, keys: Vec<Text>) {
        if kind == KEYREF {
            return self.keep_keyref(scope, keys);
        }
        match find(&self.tuples, scope.number, &keys) {
            0 => self.keep(scope, keys),
            number => self.report(scope, DUPLICATE, 0, number),
        }
    }

    /// Of a keyref that refers to something, repeats included.
    fn keep_keyref(&mut self, scope: Scope, keys: Vec<Text>) {
        let id = &self.definitions.ids[scope.constraint as usize].id;
        if id.refer.is_some() {
            self.keep(scope, keys);
        }
    }

    fn keep(&mut self, scope: Scope, keys: Vec<Text>) {
        self.tuples.push(Tu {
            constraint: scope.constraint as u8,
            scope: scope.number,
            keys,
        });
    }

    fn report(&mut self, scope: Scope, kind: u8, field: usize, tuple: usize) {
        self.reports.push(Rp {
            kind,
            constraint: scope.constraint as u8,
            field: field as u8,
            scope: scope.number,
            event: self.events as u32,
            tuple: tuple as u32,
        });
    }

    /// FI: each keyref TU that no unique or key TU of a constraint named by refer answers.
    pub(super) fn finish(&mut self) {
        self.stage = Stage::Done;
        let unanswered = self.unanswered();
        self.reports.extend(unanswered);
    }

    fn unanswered(&self) -> Vec<Rp> {
        let numbered = self.tuples.iter().zip(1..);
        let is_unanswered = |(tuple, _): &(&Tu, u32)| {
            let id = &self.definitions.ids[usize::from(tuple.constraint)].id;
            let refer = id.refer.as_ref();
            let named = refer.map_or(0, |refer| mask(&self.definitions.answering(refer)));
            id.kind == KEYREF && !is_answered(&self.tuples, named, &tuple.keys)
        };
        let report = |(tuple, number): (&Tu, u32)| Rp {
            kind: UNANSWERED,
            constraint: tuple.constraint,
            field: 0,
            scope: tuple.scope,
            event: self.events as u32,
            tuple: number,
        };
        numbered.filter(is_unanswered).map(report).collect()
    }
}
