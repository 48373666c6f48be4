//! What a record that was taken has to do with, where streams are made to have it: so that a comparison
//! whose streams lack something fails.

use crate::entries::{Alternative, Test};
use crate::model::cells::Cell;
use crate::model::counts::Stage;
use crate::model::definitions::Definition;
use crate::model::paths::read;
use crate::model::records::Record;
use crate::model::selections::Selection;
use crate::model::session::Session;
use crate::paths::Kind;

/// Names, prefixes and keys count where they had a say: something was selected, hit or stored by them.
#[derive(Debug, Clone, Copy, PartialEq, Eq, PartialOrd, Ord)]
pub enum Feature {
    /// Scopes are open at two depths,
    NestedScopes,
    /// of one constraint.
    NestedInItself,
    /// A root behind another.
    SecondRoot,
    /// A keyref's tuple that something answers.
    Answered,
    /// An element was selected by a prefix that the path binds itself,
    OwnBinding,
    /// that is bound schema-wide,
    SchemaBinding,
    /// or that nothing binds.
    Unbound,
    /// The same with a prefix that is not ASCII,
    UnicodePrefix,
    /// and with a namespace that is not.
    UnicodeSpace,
    /// An element was selected by a name that is not ASCII.
    UnicodeElement,
    /// An attribute gave a key by a name that is not ASCII.
    UnicodeAttribute,
    /// A tuple with a key that is not ASCII was stored,
    UnicodeKey,
    /// or found again.
    UnicodeDuplicate,
    /// A keyref whose refer is not ASCII stored a tuple.
    UnicodeRefer,
}

impl Feature {
    #[rustfmt::skip]
    pub const ALL: [Self; 14] = [
        Self::NestedScopes, Self::NestedInItself, Self::SecondRoot, Self::Answered,
        Self::OwnBinding, Self::SchemaBinding, Self::Unbound,
        Self::UnicodePrefix, Self::UnicodeSpace, Self::UnicodeElement, Self::UnicodeAttribute,
        Self::UnicodeKey, Self::UnicodeDuplicate, Self::UnicodeRefer,
    ];
}

/// Those of a record that was taken, by the session before and after it.
pub fn of(record: &Record, before: &Session, after: &Session) -> Vec<Feature> {
    let mut found = Vec::new();
    match record {
        Record::Es(_) => {
            scopes(before, after, &mut found);
            let selected = after.selections.iter().skip(before.selections.len());
            selected.for_each(|it| selection(it, after, &mut found));
            if gives_key_by_unicode(before, after) {
                found.push(Feature::UnicodeAttribute);
            }
        }
        Record::Ee(_) => tuples(before, after, &mut found),
        Record::Fi => {
            let is_keyref = |constraint: u8| definition(after, constraint.into()).id.kind == 2;
            let keyrefs = after.tuples.iter().filter(|it| is_keyref(it.constraint));
            if keyrefs.count() > after.reports.len() - before.reports.len() {
                found.push(Feature::Answered);
            }
        }
        Record::Id(_) | Record::Ns(_) => {}
    }
    found
}

fn definition(session: &Session, constraint: u32) -> &Definition {
    &session.definitions.ids[constraint as usize]
}

fn scopes(before: &Session, after: &Session, found: &mut Vec<Feature>) {
    if before.stage == Stage::During(0) {
        found.push(Feature::SecondRoot);
    }
    let Some(last) = after.scopes.last() else {
        return;
    };
    let above = || after.scopes.iter().filter(|it| it.depth < last.depth);
    if above().next().is_some() {
        found.push(Feature::NestedScopes);
    }
    if above().any(|it| it.constraint == last.constraint) {
        found.push(Feature::NestedInItself);
    }
}

/// A new selection. Where a selector has one alternative, that one selected the element.
fn selection(selection: &Selection, session: &Session, found: &mut Vec<Feature>) {
    let constraint = session.scopes[selection.scope].constraint;
    let definition = definition(session, constraint);
    let Some([path]) = alternatives(Kind::Selector, &definition.id.selector) else {
        return;
    };
    let name = session.names.last().expect("an element is open");
    let Some(Test { prefix, local }) = path.steps.last() else {
        return;
    };
    if local.as_deref().is_some_and(is_unicode) {
        found.push(Feature::UnicodeElement);
    }
    let Some(prefix) = prefix else {
        return;
    };
    let own = definition.own.iter().filter(|it| it.target == 1);
    let is_own = own.into_iter().any(|it| it.prefix == *prefix);
    let is_wide = session
        .definitions
        .schema
        .iter()
        .any(|it| it.prefix == *prefix);
    found.push(match (is_own, is_wide) {
        (true, _) => Feature::OwnBinding,
        (_, true) => Feature::SchemaBinding,
        _ => Feature::Unbound,
    });
    if (is_own || is_wide) && is_unicode(prefix) {
        found.push(Feature::UnicodePrefix);
    }
    if (is_own || is_wide) && is_unicode(&name.space) {
        found.push(Feature::UnicodeSpace);
    }
}

/// Whether a cell became Set by a field that asks for no other attribute than one.
fn gives_key_by_unicode(before: &Session, after: &Session) -> bool {
    let was_set = |place: usize, field: usize| {
        let cells = before.selections.get(place).map(|it| &it.cells[field]);
        cells.is_some_and(|cell| *cell != Cell::Unset)
    };
    let by_unicode = |selection: &Selection, field: usize| {
        let constraint = after.scopes[selection.scope].constraint;
        let path = &definition(after, constraint).id.fields[field];
        let path = alternatives(Kind::Field, path);
        let test = path.as_ref().and_then(|[path]| path.attribute.as_ref());
        test.is_some_and(|it| it.local.as_deref().is_some_and(is_unicode))
    };
    after
        .selections
        .iter()
        .enumerate()
        .any(|(place, selection)| {
            let mut cells = selection.cells.iter().enumerate();
            cells.any(|(field, cell)| {
                matches!(cell, Cell::Set(_))
                    && !was_set(place, field)
                    && by_unicode(selection, field)
            })
        })
}

fn tuples(before: &Session, after: &Session, found: &mut Vec<Feature>) {
    for tuple in &after.tuples[before.tuples.len()..] {
        if tuple.keys.iter().any(|key| is_unicode(key)) {
            found.push(Feature::UnicodeKey);
        }
        let id = &definition(after, tuple.constraint.into()).id;
        if id.kind == 2 && id.refer.as_deref().is_some_and(is_unicode) {
            found.push(Feature::UnicodeRefer);
        }
    }
    for report in &after.reports[before.reports.len()..] {
        let tuple = (report.kind == 4).then(|| &after.tuples[report.tuple as usize - 1]);
        if tuple.is_some_and(|it| it.keys.iter().any(|key| is_unicode(key))) {
            found.push(Feature::UnicodeDuplicate);
        }
    }
}

/// The one alternative of a path that has no more.
fn alternatives(kind: Kind, path: &[u8]) -> Option<[Alternative; 1]> {
    read(kind, path)?.try_into().ok()
}

fn is_unicode(text: &[u8]) -> bool {
    !text.is_ascii()
}
