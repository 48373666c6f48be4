//! The element tree of a run, built from the records that were taken, and what the tree definition of
//! document 01 makes of a closed unique or key scope in it: demand 3, counted from outside. No session has
//! a say in it; the tuple store only gives the numbers of the tuples.

use std::collections::BTreeSet;

use crate::model::bytes::Text;
use crate::model::cells::{Cell, Hit};
use crate::model::constraints::Constraint;
use crate::model::definitions::Definitions;
use crate::model::judge::Outcome;
use crate::model::names::Name;
use crate::model::records::{Ee, Es, Record};
use crate::model::reports::Rp;
use crate::model::tuples::{Tu, find};

/// An element: its ES, the scopes that it opened, its children, and once it has ended the event number of
/// its EE and the EE.
#[derive(Debug)]
struct Element {
    start: Es,
    scopes: Vec<Scope>,
    children: Vec<Element>,
    end: Option<(u32, Ee)>,
}

/// A scope: its number, and its constraint's.
#[derive(Debug, Clone, Copy)]
struct Scope {
    number: u32,
    constraint: u8,
}

/// The tree of the records so far: those open are each inside the one before.
#[derive(Default)]
pub struct Tree {
    definitions: Definitions,
    roots: Vec<Element>,
    open: Vec<Element>,
    events: u32,
    opened: u32,
}

/// What demand 3 says of a closed unique or key scope.
#[derive(Debug)]
pub struct Judged {
    pub scope: u32,
    /// The first count: the selected elements, but those that are dropped.
    pub first: usize,
    /// The second count: the different complete tuples. One on an element declared nillable is none of a
    /// key.
    pub second: usize,
    /// The reports against the scope, in order.
    pub reports: Vec<Rp>,
}

// ---- building

impl Tree {
    /// A record that was taken.
    pub fn take(&mut self, record: &Record) {
        self.events += 1;
        match record {
            Record::Id(_) | Record::Ns(_) => self.definitions.define(record.clone()),
            Record::Es(es) => self.start(es),
            Record::Ee(ee) => self.end(ee),
            Record::Fi => {}
        }
    }

    fn start(&mut self, es: &Es) {
        let mut scopes = Vec::new();
        for &constraint in &es.numbers {
            if Constraint::of(&self.definitions, constraint.into()).reads() {
                self.opened += 1;
                let number = self.opened;
                scopes.push(Scope { number, constraint });
            }
        }
        self.open.push(Element {
            start: es.clone(),
            scopes,
            children: Vec::new(),
            end: None,
        });
    }

    fn end(&mut self, ee: &Ee) {
        let mut element = self.open.pop().expect("13 comes before");
        element.end = Some((self.events, ee.clone()));
        match self.open.last_mut() {
            Some(parent) => parent.children.push(element),
            None => self.roots.push(element),
        }
    }

    /// What demand 3 says of each closed unique or key scope. Elements inside open ones are closed too.
    pub fn judged(&self, tuples: &[Tu]) -> Vec<Judged> {
        let mut judged = Vec::new();
        let inside = self.open.iter().flat_map(|element| &element.children);
        for element in self.roots.iter().chain(inside) {
            self.judge(element, tuples, &mut judged);
        }
        judged
    }

    fn judge(&self, element: &Element, tuples: &[Tu], judged: &mut Vec<Judged>) {
        for &scope in &element.scopes {
            if self.kind(scope) < 2 {
                judged.push(self.judge_scope(element, scope, tuples));
            }
        }
        for child in &element.children {
            self.judge(child, tuples, judged);
        }
    }

    fn kind(&self, scope: Scope) -> u8 {
        self.definitions.ids[usize::from(scope.constraint)].id.kind
    }
}

// ---- a closed scope

/// A selected element: the event number of its EE, and what its fields come to.
struct Selected {
    event: u32,
    outcome: Outcome,
}

impl Tree {
    fn judge_scope(&self, element: &Element, scope: Scope, tuples: &[Tu]) -> Judged {
        let constraint = Constraint::of(&self.definitions, scope.constraint.into());
        let mut selected = Vec::new();
        select(&constraint, element, &mut Vec::new(), &mut selected);
        let is_key = self.kind(scope) == 1;
        let is_dropped = |it: &&Selected| !is_key && matches!(it.outcome, Outcome::Missing(_));
        let dropped = selected.iter().filter(is_dropped).count();
        let mut different: BTreeSet<&[Text]> = BTreeSet::new();
        let mut reports = Vec::new();
        for it in &selected {
            let (kind, field, tuple) = match &it.outcome {
                Outcome::SeveralNodes => (1, 0, 0),
                Outcome::NoSimpleValue => (2, 0, 0),
                Outcome::Missing(field) if is_key => (3, *field, 0),
                Outcome::Missing(_) => continue,
                Outcome::Nillable(field, _) if is_key => (7, *field, 0),
                Outcome::Nillable(_, keys) | Outcome::Complete(keys) => {
                    if different.insert(keys) {
                        continue;
                    }
                    (4, 0, find(tuples, scope.number, keys))
                }
            };
            reports.push(Rp {
                kind,
                constraint: scope.constraint,
                field: field as u8,
                scope: scope.number,
                event: it.event,
                tuple: tuple as u32,
            });
        }
        Judged {
            scope: scope.number,
            first: selected.len() - dropped,
            second: different.len(),
            reports,
        }
    }
}

/// The elements in a subtree that a constraint selects, in the order of their ends. `below` leads to the
/// subtree's own element from the scope's.
fn select(
    constraint: &Constraint,
    element: &Element,
    below: &mut Vec<Name>,
    selected: &mut Vec<Selected>,
) {
    for child in &element.children {
        below.push(name(child));
        select(constraint, child, below, selected);
        below.pop();
    }
    if constraint.selects(below) {
        let (event, _) = element.end.as_ref().expect("its scope is closed");
        let cells: Vec<Cell> = (0..constraint.field_count())
            .map(|field| cell(constraint, field, element))
            .collect();
        selected.push(Selected {
            event: *event,
            outcome: Outcome::of(&cells),
        });
    }
}

fn name(element: &Element) -> Name {
    Name::of(&element.start.space, &element.start.name)
}

/// No hit is Unset; one is Set or NotSimple; two or more are Multiple.
fn cell(constraint: &Constraint, field: usize, element: &Element) -> Cell {
    let mut found = Vec::new();
    hits(constraint, field, element, &mut Vec::new(), &mut found);
    match &found[..] {
        [] => Cell::Unset,
        [Hit::Simple(key)] => Cell::Set(key.clone()),
        [Hit::Nillable(key)] => Cell::SetNillable(key.clone()),
        [Hit::Complex] => Cell::NotSimple,
        _ => Cell::Multiple,
    }
}

/// A field's hits on a selected element and below it; `below` leads to the element from the selected one.
fn hits(
    constraint: &Constraint,
    field: usize,
    element: &Element,
    below: &mut Vec<Name>,
    found: &mut Vec<Hit>,
) {
    let attributes = &element.start.attributes;
    found.extend(constraint.attribute_hits(field, below, attributes).hits);
    for child in &element.children {
        below.push(name(child));
        hits(constraint, field, child, below, found);
        below.pop();
    }
    let (_, end) = element.end.as_ref().expect("its scope is closed");
    found.extend(constraint.element_hits(field, below, end).hits);
}
