//! A session: all that is lent to a call, and what it decodes to. Refusal 10 is exactly where it
//! decodes to nothing.

use super::bytes::{Text, part};
use super::counts::{Counts, Lengths, Numbers, Stage, TUPLES_PER_EVENT, fit};
use super::definitions::{Definitions, name_of};
use super::names::{self, Name};
use super::reports::{self, Rp, UNREAD};
use super::scopes::{self, Scope};
use super::selections::{self, Selection};
use super::tuples::{self, Tu};

/// All that is lent: the five numbers, the three stores, the areas. Of the path area only the length
/// counts.
#[derive(Debug, Clone, PartialEq, Eq)]
pub struct World {
    pub numbers: Numbers,
    pub definition_store: Vec<u8>,
    pub tuple_store: Vec<u8>,
    pub report_store: Vec<u8>,
    pub names: Vec<u8>,
    pub scopes: Vec<Scope>,
    pub cells: Vec<u8>,
    pub path_area: usize,
    /// Not lent: whether two alternatives of a field have reached one node so far.
    pub several_routes: bool,
    /// Not lent: whether an element that is declared nillable has ended so far.
    pub nillable: bool,
}

/// What a world decodes to. The names are those of the open elements; `opened` counts the scopes
/// opened so far, `events` the accepted records. `several_routes` and `nillable` are raised by the record
/// that is taken.
#[derive(Debug, Clone, PartialEq, Eq)]
pub struct Session {
    pub definitions: Definitions,
    pub stage: Stage,
    pub names: Vec<Name>,
    pub scopes: Vec<Scope>,
    pub selections: Vec<Selection>,
    pub opened: u64,
    pub events: u64,
    pub tuples: Vec<Tu>,
    pub reports: Vec<Rp>,
    pub several_routes: bool,
    pub nillable: bool,
}

impl World {
    /// Set-up: five zeros. Stores and areas are whatever is lent, here of these lengths and full of one
    /// byte.
    pub fn set_up(lengths: Lengths, fill: u8) -> Self {
        let number = u32::from_le_bytes([fill; 4]);
        let scope = Scope {
            constraint: number,
            number,
            depth: number,
        };
        Self {
            numbers: Numbers::default(),
            definition_store: vec![fill; lengths.definitions],
            tuple_store: vec![fill; lengths.tuples],
            report_store: vec![fill; lengths.reports],
            names: vec![fill; lengths.names],
            scopes: vec![scope; lengths.scopes],
            cells: vec![fill; lengths.cells],
            path_area: lengths.paths,
            several_routes: false,
            nillable: false,
        }
    }

    /// How long the stores and areas are.
    pub fn lengths(&self) -> Lengths {
        Lengths {
            definitions: self.definition_store.len(),
            tuples: self.tuple_store.len(),
            reports: self.report_store.len(),
            names: self.names.len(),
            scopes: self.scopes.len(),
            cells: self.cells.len(),
            paths: self.path_area,
        }
    }

    /// The session that is held, where it is well formed. No path is parsed.
    pub fn decode(&self) -> Option<Session> {
        let Self { numbers, .. } = *self;
        let counts = Counts::unpack(numbers.running);
        if !fit(numbers, self.lengths(), counts) {
            return None;
        }
        let stage = Stage::of(counts.stage);
        let depth = stage.depth();
        let definitions = Definitions::read(used(&self.definition_store, numbers.definitions))?;
        let constraints = definitions.ids.len();
        let names = names::read(&self.names, depth)?;
        let open = &self.scopes[..counts.scopes as usize];
        if !scopes::fit(open, constraints, depth, counts.opened) {
            return None;
        }
        Some(Session {
            stage,
            names,
            scopes: open.into(),
            selections: selections::read(
                &self.cells,
                counts.selections as usize,
                open,
                &field_counts(open, &definitions),
                depth,
            )?,
            opened: counts.opened,
            events: numbers.events,
            tuples: tuples::read(
                used(&self.tuple_store, numbers.tuples),
                constraints,
                counts.opened,
                TUPLES_PER_EVENT * numbers.events,
            )?,
            reports: reports::read(used(&self.report_store, numbers.reports), constraints)?,
            several_routes: false,
            nillable: false,
            definitions,
        })
    }
}

/// The used bytes of a store.
fn used(store: &[u8], length: u64) -> &[u8] {
    part(store, 0, length as usize)
}

/// How many fields the constraint of each open scope has.
pub fn field_counts(scopes: &[Scope], definitions: &Definitions) -> Vec<u8> {
    let fields = |scope: &Scope| definitions.ids[scope.constraint as usize].id.fields.len() as u8;
    scopes.iter().map(fields).collect()
}

impl Session {
    /// The counts that its packed number has.
    pub fn counts(&self) -> Counts {
        Counts {
            stage: self.stage.number(),
            scopes: self.scopes.len() as u32,
            selections: self.selections.len() as u32,
            opened: self.opened,
        }
    }

    /// The names of the constraints that kind 6 was reported for.
    pub fn told(&self) -> Vec<Text> {
        let unread = self.reports.iter().filter(|report| report.kind == UNREAD);
        unread
            .map(|report| name_of(&self.definitions, report.constraint))
            .collect()
    }
}
