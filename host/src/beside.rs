//! The original driven beside the model, record by record. What both can say is compared: the open scopes
//! with what they have selected and seen, the tuples of each name, and the reports by the messages that
//! the original has for them. The original knows no event, tuple or scope numbers and no refusals. A run is
//! left out from where the model meets something that the original takes otherwise.

use std::collections::BTreeSet;

use crate::definitions::{self, Binding, Constraint};
use crate::model::bytes::Text;
use crate::model::definitions::{Definition, Definitions};
use crate::model::records::{Id, Record};
use crate::model::reports::Rp;
use crate::model::session::{Session, World};
use crate::model::tuples::Tu;
use crate::names::Name;
use crate::oracle::session::{self, Open, Tuples, quoted};
use crate::spaces;

/// The original's session from the first ES on; before that the definitions are gathered.
#[derive(Default)]
pub struct Beside {
    definitions: Vec<definitions::Record>,
    session: Option<session::Session>,
}

/// Why a run is no longer held against the original.
#[derive(Debug, Clone, Copy, PartialEq, Eq, PartialOrd, Ord)]
pub enum LeftOut {
    /// Two alternatives of a field reached one node, which is two hits for the original.
    SeveralRoutes,
    /// A path holds other white space than XML's, which the original drops.
    OtherSpace,
    /// An element declared nillable ended: simple byte 2, of which the original knows nothing.
    Nillable,
}

impl LeftOut {
    pub const ALL: [Self; 3] = [Self::SeveralRoutes, Self::OtherSpace, Self::Nillable];

    /// By what the model has met so far: its hits, the definitions that it holds, and the ends of elements. Of
    /// several the first is told, so that each run is counted once.
    pub fn of(world: &World) -> Option<Self> {
        if world.several_routes {
            return Some(Self::SeveralRoutes);
        }
        if world.decode().is_some_and(|it| holds_other_space(&it)) {
            return Some(Self::OtherSpace);
        }
        world.nillable.then_some(Self::Nillable)
    }
}

fn holds_other_space(session: &Session) -> bool {
    let ids = session.definitions.ids.iter().map(|it| &it.id);
    let mut paths = ids.flat_map(|id| id.fields.iter().chain([&id.selector]));
    paths.any(|path| spaces::holds_other(&text(path)))
}

/// A record as the original is told of it.
pub enum Told {
    Definition(definitions::Record),
    Start(Name, Vec<usize>, Vec<(String, String)>),
    End(bool, String),
    Finish,
}

impl Told {
    pub fn of(record: &Record) -> Self {
        match record {
            Record::Id(id) => Self::Definition(definitions::Record::Id(constraint(id))),
            Record::Ns(ns) => Self::Definition(definitions::Record::Ns(Binding {
                target: ns.target,
                prefix: text(&ns.prefix),
                uri: text(&ns.uri),
            })),
            Record::Es(es) => {
                let name = Name {
                    space: text(&es.space),
                    qualified: text(&es.name),
                };
                let numbers = es.numbers.iter().map(|&number| number.into());
                let attributes = es.attributes.iter();
                let attributes = attributes.map(|it| (text(&it.name), text(&it.key)));
                Self::Start(name, numbers.collect(), attributes.collect())
            }
            Record::Ee(ee) => Self::End(ee.simple != 0, text(&ee.key)),
            Record::Fi => Self::Finish,
        }
    }
}

/// Tells a session of an event. A session has its definitions from the start, and of the end it is not
/// told.
pub fn tell(session: &mut session::Session, told: &Told) {
    match told {
        Told::Definition(_) | Told::Finish => {}
        Told::Start(name, numbers, attributes) => {
            let pairs = attributes.iter();
            let attributes: Vec<(&str, &str)> = pairs
                .map(|(name, key)| (name.as_str(), key.as_str()))
                .collect();
            session.start(name, numbers, &attributes);
        }
        Told::End(simple, key) => session.end(*simple, key),
    }
}

impl Beside {
    /// A record that the model has taken, with the model's session before and after it. Where they
    /// differ, how.
    pub fn take(
        &mut self,
        record: &Record,
        before: &Session,
        after: &Session,
    ) -> Result<(), String> {
        match Told::of(record) {
            Told::Definition(definition) => {
                self.definitions.push(definition);
                Ok(())
            }
            told => {
                tell(self.session(), &told);
                self.compare(*record == Record::Fi, before, after)
            }
        }
    }

    fn session(&mut self) -> &mut session::Session {
        let definitions = &self.definitions;
        self.session
            .get_or_insert_with(|| session::Session::new(definitions))
    }

    fn compare(&mut self, is_end: bool, before: &Session, after: &Session) -> Result<(), String> {
        let session = self.session();
        let mut said = session.messages();
        if is_end {
            said.extend(session.keyref_messages());
        }
        let new = &after.reports[before.reports.len()..];
        same("messages", said, messages(new, after))?;
        same("open scopes", session.open(), open(after))?;
        for definition in &after.definitions.ids {
            let name = &definition.id.name;
            same("tuples", session.tuples(&text(name)), tuples(after, name))?;
        }
        Ok(())
    }
}

fn same<T: PartialEq + std::fmt::Debug>(what: &str, original: T, model: T) -> Result<(), String> {
    match original == model {
        true => Ok(()),
        false => Err(format!(
            "{what}: by the original {original:?}, by the model {model:?}"
        )),
    }
}

/// A text of a record that was taken.
fn text(bytes: &[u8]) -> String {
    String::from_utf8(bytes.into()).expect("3 comes before")
}

fn constraint(id: &Id) -> Constraint {
    Constraint {
        kind: id.kind,
        name: text(&id.name),
        refer: id.refer.as_deref().map(text),
        selector: text(&id.selector),
        fields: id.fields.iter().map(|field| text(field)).collect(),
    }
}

// ---- what the model has, as the original says it

/// The message of each report.
fn messages(reports: &[Rp], session: &Session) -> Vec<String> {
    let message = |report: &Rp| {
        let number = usize::from(report.constraint);
        let tuple = report.tuple.checked_sub(1);
        let tuple = tuple.map(|place| &session.tuples[place as usize]);
        message(report, &session.definitions.ids[number], tuple)
    };
    reports.iter().map(message).collect()
}

fn message(report: &Rp, definition: &Definition, tuple: Option<&Tu>) -> String {
    let keys: &[Text] = tuple.map_or(&[], |tuple| &tuple.keys);
    wording(report.kind, report.field, &definition.id, keys)
}

/// The original's words for a report of this kind: against this constraint, of this field, with the keys of
/// this tuple.
pub fn wording(kind: u8, field: u8, id: &Id, keys: &[Text]) -> String {
    let name = text(&id.name);
    let sort = ["unique", "key", "keyref"][usize::from(id.kind)];
    let keys: Vec<String> = keys.iter().map(|key| quoted(&text(key))).collect();
    match kind {
        1 => format!("{sort} '{name}': a field matches more than one node"),
        2 => format!("{sort} '{name}': a field selects an element without a simple value"),
        3 => format!("null value in key field {field} of constraint '{name}'"),
        4 => format!("duplicate value {keys:?} in constraint '{name}'"),
        5 => {
            let refer = id.refer.as_deref().map(text);
            let refer = refer.expect("a keyref TU has a refer");
            format!("keyref '{name}' value {keys:?} not found in key '{refer}'")
        }
        _ => format!(
            "identity constraint '{name}' is not checked: its selector or field is outside the \
             XPath subset XML Schema allows for identity constraints"
        ),
    }
}

/// The open scopes. A keyref scope sees no tuples.
fn open(session: &Session) -> Vec<Open> {
    let of = |place: usize| {
        let scope = session.scopes[place];
        let definition = &session.definitions.ids[scope.constraint as usize];
        let selected = session.selections.iter().filter(|it| it.scope == place);
        let is_its = |tuple: &&Tu| tuple.scope == scope.number && definition.id.kind < 2;
        Open {
            constraint: constraint(&definition.id),
            depth: scope.depth as usize,
            selected: selected
                .map(|it| (it.depth as usize, it.cells.clone()))
                .collect(),
            seen: keys(session.tuples.iter().filter(is_its)),
        }
    };
    (0..session.scopes.len()).map(of).collect()
}

/// The tuples of the unique and key constraints of a name.
fn tuples(session: &Session, name: &[u8]) -> Tuples {
    let answering = Definitions::answering(&session.definitions, name);
    let is_its = |tuple: &&Tu| answering.contains(&tuple.constraint.into());
    keys(session.tuples.iter().filter(is_its))
}

fn keys<'a>(tuples: impl Iterator<Item = &'a Tu>) -> Tuples {
    let texts = |tuple: &Tu| tuple.keys.iter().map(|key| text(key)).collect();
    tuples.map(texts).collect::<BTreeSet<_>>()
}
