//! A constraint with its paths read, and what they take of an element ('The tree definition').

use super::cells::Hit;
use super::definitions::{Definition, Definitions};
use super::matching::{Path, uri_of};
use super::names::Name;
use super::paths::read;
use super::records::{Attribute, Ee};
use crate::paths::Kind;

/// The alternatives of the selector and of each field; none where the path does not read.
#[derive(Debug)]
pub struct Constraint {
    selector: Option<Vec<Path>>,
    fields: Vec<Option<Vec<Path>>>,
}

impl Constraint {
    /// The constraint with this number.
    pub fn of(definitions: &Definitions, number: usize) -> Self {
        let definition = &definitions.ids[number];
        let fields = definition.id.fields.iter().zip(2..);
        Self {
            selector: paths(
                definitions,
                definition,
                Kind::Selector,
                1,
                &definition.id.selector,
            ),
            fields: fields
                .map(|(field, target)| paths(definitions, definition, Kind::Field, target, field))
                .collect(),
        }
    }

    /// Whether all its paths read; else it opens no scope.
    pub fn reads(&self) -> bool {
        self.selector.is_some() && self.fields.iter().all(Option::is_some)
    }

    /// Whether some selector alternative matches an element, by the names that lead to it from the
    /// scope's own. A path that does not read takes nothing.
    pub fn selects(&self, below: &[Name]) -> bool {
        let mut alternatives = self.selector.iter().flatten();
        alternatives.any(|path| path.matches(below))
    }

    /// How many fields it has.
    pub fn field_count(&self) -> usize {
        self.fields.len()
    }

    /// What a field finds among the attributes of an element, by the names that lead to it from the
    /// selected one. Each of the list is a node of its own, whatever its name.
    pub fn attribute_hits(&self, field: usize, below: &[Name], attributes: &[Attribute]) -> Found {
        let mut found = Found::default();
        for attribute in attributes {
            let reaches = |path: &Path| path.reaches_attribute(below, &attribute.name);
            let hit = Hit::Simple(attribute.key.clone());
            found.take(self.routes(field, reaches), hit);
        }
        found
    }

    /// What a field finds in an element that ends.
    pub fn element_hits(&self, field: usize, below: &[Name], end: &Ee) -> Found {
        let mut found = Found::default();
        let hit = Hit::new(end.simple, &end.key);
        found.take(self.routes(field, |path| path.reaches_element(below)), hit);
        found
    }

    /// How many alternatives of a field reach a node.
    fn routes(&self, field: usize, reaches: impl Fn(&Path) -> bool) -> usize {
        let paths = self.fields[field].iter().flatten();
        paths.filter(|path| reaches(path)).count()
    }
}

/// What a field finds on an element. Its result is a set of nodes: a hit for each that some alternative
/// reaches.
#[derive(Debug, Default)]
pub struct Found {
    pub hits: Vec<Hit>,
    /// Two alternatives reached one node.
    pub several_routes: bool,
}

impl Found {
    fn take(&mut self, routes: usize, hit: Hit) {
        self.hits.extend((routes > 0).then_some(hit));
        self.several_routes |= routes > 1;
    }
}

/// A path of a definition with the prefixes looked up as its target says.
fn paths(
    definitions: &Definitions,
    definition: &Definition,
    kind: Kind,
    target: u8,
    path: &[u8],
) -> Option<Vec<Path>> {
    let find = |prefix: &[u8]| uri_of(definitions, definition, target, prefix);
    let alternatives = read(kind, path)?;
    Some(
        alternatives
            .iter()
            .map(|read| Path::of(read, find))
            .collect(),
    )
}
