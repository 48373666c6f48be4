//! Prefix resolution and matching ('Paths: the checker and the reader', the last two paragraphs): a path
//! with its prefixes looked up, against the names below its base element.

use super::bytes::Text;
use super::definitions::{Definition, Definitions};
use super::names::{Name, after_colon};
use super::records::Ns;
use crate::entries::{Alternative, Test};

/// The namespace that the prefix `xml` stands for.
pub const XML_NAMESPACE: &str = "http://www.w3.org/XML/1998/namespace";

/// A step: the namespace that it asks for, none where any will do, and the local part, none for `*`.
#[derive(Debug, Clone, PartialEq, Eq)]
struct Step {
    space: Option<Text>,
    local: Option<Text>,
}

/// An alternative of a path. It ends at an element, or at an attribute with a local part, none for `*`.
#[derive(Debug, Clone, PartialEq, Eq)]
pub struct Path {
    descendant: bool,
    steps: Vec<Step>,
    attribute: Option<Option<Text>>,
}

// ---- prefixes

/// What a prefix is bound to in the path with this target: `xml`, then the path's own bindings, the first
/// of them, then schema-wide.
pub fn uri_of<'a>(
    definitions: &'a Definitions,
    definition: &'a Definition,
    target: u8,
    prefix: &[u8],
) -> Option<&'a [u8]> {
    if prefix == b"xml" {
        return Some(XML_NAMESPACE.as_bytes());
    }
    let own = definition.own.iter().filter(|it| it.target == target);
    let mut bindings = own.chain(&definitions.schema);
    let bound: Option<&Ns> = bindings.find(|it| it.prefix == prefix);
    bound.map(|it| it.uri.as_slice())
}

/// Whether an element's namespace is the one that is asked for: any where no URI was found, and none
/// where an empty one was.
pub fn space_fits(uri: Option<&[u8]>, space: &[u8]) -> bool {
    uri.is_none_or(|uri| !uri.is_empty() && uri == space)
}

impl Path {
    /// An alternative with its prefixes looked up. The prefix of an attribute test has no say.
    pub fn of<'a>(read: &Alternative, find: impl Fn(&[u8]) -> Option<&'a [u8]>) -> Self {
        let step = |test: &Test| Step {
            space: test.prefix.as_deref().and_then(&find).map(Into::into),
            local: test.local.clone(),
        };
        Self {
            descendant: read.descendant,
            steps: read.steps.iter().map(step).collect(),
            attribute: read.attribute.as_ref().map(|test| test.local.clone()),
        }
    }
}

// ---- names

impl Step {
    fn fits(&self, name: &Name) -> bool {
        space_fits(self.space.as_deref(), &name.space) && local_fits(&self.local, &name.local)
    }
}

fn local_fits(wanted: &Option<Text>, local: &[u8]) -> bool {
    wanted.as_ref().is_none_or(|wanted| wanted == local)
}

impl Path {
    /// The steps take the names below the base element: all of them, or with `.//` the last ones.
    pub fn matches(&self, below: &[Name]) -> bool {
        let Some(above) = below.len().checked_sub(self.steps.len()) else {
            return false;
        };
        let fits = |(step, name): (&Step, &Name)| step.fits(name);
        (self.descendant || above == 0) && self.steps.iter().zip(&below[above..]).all(fits)
    }

    /// Whether it ends at the last element of these.
    pub fn reaches_element(&self, below: &[Name]) -> bool {
        self.attribute.is_none() && self.matches(below)
    }

    /// Whether it ends at an attribute of this qualified name of the last element.
    pub fn reaches_attribute(&self, below: &[Name], name: &[u8]) -> bool {
        let fits = |wanted| local_fits(wanted, after_colon(name));
        self.attribute.as_ref().is_some_and(fits) && self.matches(below)
    }
}
