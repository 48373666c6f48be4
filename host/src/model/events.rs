//! What a record does to a session where nothing stands against it ('The tree definition').

use super::cells::Cell;
use super::constraints::{Constraint, Found};
use super::counts::Stage;
use super::judge::Finished;
use super::names::Name;
use super::records::{Ee, Es, Record};
use super::reports::{Rp, UNREAD};
use super::scopes::Scope;
use super::selections::Selection;
use super::session::Session;

impl Session {
    /// The session after a record more, which is counted.
    pub fn after(&self, record: &Record) -> Self {
        let mut next = self.clone();
        next.events += 1;
        match record {
            Record::Id(_) | Record::Ns(_) => next.definitions.define(record.clone()),
            Record::Es(es) => next.start(es),
            Record::Ee(ee) => next.end(ee),
            Record::Fi => next.finish(),
        }
        next
    }

    /// The listed constraints open their scopes; then each open scope that selects the element does so,
    /// once; then all open selections take the hits of its attributes.
    fn start(&mut self, es: &Es) {
        self.names.push(Name::of(&es.space, &es.name));
        self.stage = Stage::During(self.depth());
        for &number in &es.numbers {
            self.open(number);
        }
        for place in 0..self.scopes.len() {
            self.select(place);
        }
        self.hit(|constraint, field, below| {
            constraint.attribute_hits(field, below, &es.attributes)
        });
    }

    /// A constraint opens a scope if its paths read, else kind 6 is reported, once for its name.
    fn open(&mut self, number: u8) {
        if Constraint::of(&self.definitions, number.into()).reads() {
            self.opened += 1;
            self.scopes.push(Scope {
                constraint: number.into(),
                number: self.opened as u32,
                depth: self.depth(),
            });
            return;
        }
        let name = &self.definitions.ids[usize::from(number)].id.name;
        if !self.told().contains(name) {
            self.reports.push(Rp {
                kind: UNREAD,
                constraint: number,
                field: 0,
                scope: 0,
                event: self.events as u32,
                tuple: 0,
            });
        }
    }

    /// The innermost element, where the open scope at a place selects it.
    fn select(&mut self, place: usize) {
        let scope = self.scopes[place];
        let constraint = Constraint::of(&self.definitions, scope.constraint as usize);
        if constraint.selects(&self.names[scope.depth as usize..]) {
            let blank = vec![Cell::Unset; constraint.field_count()];
            self.selections
                .push(Selection::new(place, self.depth(), &blank));
        }
    }

    /// Each field of each open selection takes the hits that it has on the innermost element.
    fn hit(&mut self, found: impl Fn(&Constraint, usize, &[Name]) -> Found) {
        for selection in &mut self.selections {
            let number = self.scopes[selection.scope].constraint as usize;
            let constraint = Constraint::of(&self.definitions, number);
            let below = &self.names[selection.depth as usize..];
            for (field, cell) in selection.cells.iter_mut().enumerate() {
                let found = found(&constraint, field, below);
                for hit in &found.hits {
                    *cell = cell.hit(hit);
                }
                self.several_routes |= found.several_routes;
            }
        }
    }

    /// All open selections take the hits of the innermost element. Those of the element finish, in the
    /// order of their scopes, and its scopes close.
    fn end(&mut self, ee: &Ee) {
        self.nillable = ee.simple == 2;
        self.hit(|constraint, field, below| constraint.element_hits(field, below, ee));
        let depth = self.depth();
        let ends = |it: &mut Selection| it.depth == depth;
        let finished: Vec<Selection> = self.selections.extract_if(.., ends).collect();
        for selection in finished {
            let scope = self.scopes[selection.scope];
            self.judge(&Finished {
                scope,
                cells: selection.cells,
            });
        }
        self.scopes.retain(|scope| scope.depth != depth);
        self.names.pop();
        self.stage = Stage::During(self.depth());
    }

    /// How many elements are open.
    fn depth(&self) -> u32 {
        self.names.len() as u32
    }
}
