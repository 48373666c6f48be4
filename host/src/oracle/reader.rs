//! The original's reader and matching as an oracle: `parse_selector`, `parse_field`, `ScopeState::new`
//! for the look-up of prefixes, `matches` and `attr_matches`.

use std::cell::RefCell;

use super::assert_comparable;
use super::session::Definitions;
use crate::definitions::{Record, kind_of};
use crate::entries::{Alternative, Test};
use crate::names::Name;
use crate::paths::Kind;
use crate::schema::validator::streaming::identity::{
    FieldAlt, NameTest, PathName, ScopeState, StepPath, attr_matches, parse_field, parse_selector,
};

/// What the original reads a path as, with prefixes as they are written; none where it is unread.
#[track_caller]
pub fn read(kind: Kind, path: &str) -> Option<Vec<Alternative>> {
    assert_comparable(path);
    let alternatives = match kind {
        Kind::Selector => to_elements(parse_selector(path, &as_written)?),
        Kind::Field => parse_field(path, &as_written)?.alts,
    };
    let written = alternatives.iter().zip(path.split('|'));
    Some(
        written
            .map(|(read, text)| alternative(read, text))
            .collect(),
    )
}

fn to_elements(paths: Vec<StepPath>) -> Vec<FieldAlt> {
    let to_element = |path| FieldAlt { path, attr: None };
    paths.into_iter().map(to_element).collect()
}

/// Looks no prefix up, so that it can be seen in the place of its namespace.
fn as_written(prefix: &str) -> Option<String> {
    Some(prefix.into())
}

/// An alternative and its part of the path's text.
fn alternative(read: &FieldAlt, text: &str) -> Alternative {
    let steps: Vec<Test> = read.path.steps.iter().map(step).collect();
    let attribute = read.attr.as_ref().map(|pattern| Test {
        prefix: attribute_prefix(&steps, text),
        local: local(pattern),
    });
    Alternative {
        descendant: read.path.descendant,
        steps,
        attribute,
    }
}

fn step(read: &NameTest) -> Test {
    Test {
        prefix: read.ns.as_ref().map(|prefix| prefix.as_bytes().into()),
        local: local(&read.local),
    }
}

fn local(read: &str) -> Option<Vec<u8>> {
    (read != "*").then(|| read.as_bytes().into())
}

/// The prefix of the attribute test that ends an alternative. The original looks it up and drops it:
/// it is what is looked up behind the prefixes of the steps.
fn attribute_prefix(steps: &[Test], alternative: &str) -> Option<Vec<u8>> {
    let looked_up = RefCell::new(Vec::new());
    let resolve = |prefix: &str| {
        looked_up.borrow_mut().push(prefix.as_bytes().to_vec());
        None
    };
    parse_field(alternative, &resolve).expect("the whole path was read");
    let of_steps = steps.iter().filter(|step| step.prefix.is_some()).count();
    looked_up.into_inner().into_iter().nth(of_steps)
}

/// A path of a constraint with its prefixes looked up.
pub struct Path(Vec<FieldAlt>);

impl Path {
    /// The path with this target of the constraint with this number. None where the original does
    /// not read all paths of the constraint.
    pub fn of(records: &[Record], number: usize, target: u8) -> Option<Self> {
        let definitions = Definitions::of(records);
        let constraint = &definitions.constraints[number];
        let schema_prefix = |prefix: &str| definitions.schema.get(prefix).cloned();
        let mut scope = ScopeState::new(constraint, 0, &schema_prefix)?;
        Some(Self(match kind_of(target) {
            Kind::Selector => to_elements(scope.selector),
            Kind::Field => scope.fields.swap_remove(usize::from(target) - 2).alts,
        }))
    }

    /// The namespaces that the steps of all alternatives ask for; none where any will do.
    pub fn spaces(&self) -> Vec<Option<&str>> {
        let steps = self.0.iter().flat_map(|read| &read.path.steps);
        steps.map(|step| step.ns.as_deref()).collect()
    }

    /// Whether some alternative matches the names below the base element.
    pub fn selects(&self, below: &[Name]) -> bool {
        let below = path_names(below);
        self.0.iter().any(|read| read.path.matches(&below))
    }

    /// How many alternatives reach the last element of these, or an attribute of it.
    pub fn reaches(&self, below: &[Name], attribute: Option<&str>) -> usize {
        let below = path_names(below);
        let ends = |read: &FieldAlt| match (&read.attr, attribute) {
            (None, None) => true,
            (Some(pattern), Some(name)) => attr_matches(name, pattern),
            _ => false,
        };
        let reaches = |read: &&FieldAlt| ends(read) && read.path.matches(&below);
        self.0.iter().filter(reaches).count()
    }
}

fn path_names(names: &[Name]) -> Vec<PathName<'_>> {
    names.iter().map(path_name).collect()
}

/// A name as the original takes it from an open element: without a namespace it has none, and not
/// the empty one.
fn path_name(name: &Name) -> PathName<'_> {
    let space = Some(name.space.as_str()).filter(|space| !space.is_empty());
    (space, name.local())
}
