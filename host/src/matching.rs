//! What prefix resolution and matching are held against: the original on the elements and bindings
//! themselves, and on any bytes a plain reading of the definitions. A difference is made small
//! before it is shown.

use std::ops::Range;

use crate::bindings::{find, uri_of};
use crate::definitions::{
    Constraint, Record, constraints, kind_of, own_part, store, with_path, without,
};
use crate::doors::{self, Lent};
use crate::entries::{self, Alternative, Test};
use crate::model::matching::space_fits;
use crate::model::names::after_colon;
use crate::names::{self, Name};
use crate::oracle::reader::{Path, read};
use crate::oracle::session::{Cell, Session};
use crate::paths::Kind;
use crate::shrink::{shorter, shrunk};

/// A path of a constraint, and elements.
#[derive(Debug, Clone)]
pub struct Case {
    /// What the definition store holds.
    pub records: Vec<Record>,
    /// The constraint among these, from 0, and which of its paths: 1 the selector, 2 + i field i.
    pub number: usize,
    pub target: u8,
    /// The open elements, the outermost first; behind `depth` of them some that have ended.
    pub names: Vec<Name>,
    /// The path is taken from the element at depth `base` to the one at depth `depth`.
    pub base: usize,
    pub depth: usize,
    /// The qualified name of an attribute of the latter.
    pub attribute: String,
}

/// What is answered of a selector, and of a field: how many hits the element is, and the attribute.
#[derive(Debug, Clone, Copy, PartialEq, Eq)]
pub enum Answer {
    Selects(bool),
    Reaches { element: usize, attribute: usize },
}

impl Answer {
    /// With one hit for each node that is reached, where the original has one for each alternative.
    pub fn once(self) -> Self {
        match self {
            Self::Selects(_) => self,
            Self::Reaches { element, attribute } => Self::Reaches {
                element: element.min(1),
                attribute: attribute.min(1),
            },
        }
    }
}

impl Case {
    pub fn kind(&self) -> Kind {
        kind_of(self.target)
    }

    pub fn path(&self) -> &str {
        self.constraint().path(self.target)
    }

    fn constraint(&self) -> &Constraint {
        let mut constraints = constraints(&self.records);
        constraints.nth(self.number).expect("a constraint")
    }

    /// With another path in the place of the one that is asked for.
    pub fn with_path(&self, path: String) -> Self {
        Self {
            records: with_path(&self.records, self.number, self.target, path),
            ..self.clone()
        }
    }
}

// ---- what is due

/// By the original: its path, with prefixes looked up, on the names, each alternative by itself. None where the
/// path is unread.
pub fn by_routes(case: &Case) -> Option<Answer> {
    let path = Path::of(&case.records, case.number, case.target)?;
    let below = &case.names[..case.depth][case.base..];
    Some(match case.kind() {
        Kind::Selector => Answer::Selects(path.selects(below)),
        Kind::Field => Answer::Reaches {
            element: path.reaches(below, None),
            attribute: path.reaches(below, Some(&case.attribute)),
        },
    })
}

/// By the original's session: the elements start one inside the other, the one at depth `base` with
/// the constraint, whose selector must be `.` if it is asked for a field. A cell tells no more hits
/// than two. The base element can be asked for an attribute alone, since its end closes the scope.
pub fn due_in_session(case: &Case) -> Answer {
    if case.kind() == Kind::Selector {
        return Answer::Selects(started(case, &[]).selects(0));
    }
    let field = usize::from(case.target) - 2;
    let hits = |session: &Session| match session.cell(0, field) {
        Cell::Unset => 0,
        Cell::Set | Cell::NotSimple => 1,
        Cell::Multiple => 2,
    };
    let attribute = hits(&started(case, &[(&case.attribute, "key")]));
    let mut session = started(case, &[]);
    let element = if case.depth > case.base {
        session.end(case.depth % 2 == 0, "key");
        hits(&session)
    } else {
        0
    };
    Answer::Reaches { element, attribute }
}

/// A session in which the elements have started, the last of them with these attributes.
fn started(case: &Case, attributes: &[(&str, &str)]) -> Session {
    let mut session = Session::new(&case.records);
    for (depth, name) in (1..=case.depth).zip(&case.names) {
        let numbers = Some(case.number).filter(|_| depth == case.base);
        let attributes = if depth == case.depth { attributes } else { &[] };
        session.start(name, numbers.as_slice(), attributes);
    }
    session
}

/// As much of an answer as a session tells.
pub fn in_session(case: &Case, answer: Answer) -> Answer {
    match answer {
        Answer::Selects(_) => answer,
        Answer::Reaches { element, attribute } => Answer::Reaches {
            element: if case.depth > case.base {
                element.min(2)
            } else {
                0
            },
            attribute: attribute.min(2),
        },
    }
}

// ---- what is lent

/// A case in bytes.
pub struct Bytes {
    pub area: Vec<u8>,
    pub names: Vec<u8>,
    pub store: Vec<u8>,
    pub own: Range<usize>,
}

impl Bytes {
    /// Behind the entries and the names stands what was there before.
    pub fn of(case: &Case) -> Option<Self> {
        let path = read(case.kind(), case.path())?;
        Some(Self {
            area: [&entries::put(&path)[..], &[1; 40]].concat(),
            names: [&names::put(&case.names)[..], &[1; 600]].concat(),
            store: store(&case.records),
            own: own_part(&case.records, case.number),
        })
    }

    pub fn lent(&self, case: &Case) -> Lent<'_> {
        Lent {
            area: &self.area,
            names: &self.names,
            base: case.base as u32,
            depth: case.depth as u32,
            own: &self.store[self.own.clone()],
            schema: &self.store,
            target: case.target,
        }
    }
}

/// The doors' answer.
pub fn given(kind: Kind, lent: Lent, attribute: &[u8]) -> Answer {
    match kind {
        Kind::Selector => Answer::Selects(doors::selects(lent)),
        Kind::Field => Answer::Reaches {
            element: doors::reaches_element(lent),
            attribute: doors::reaches_attribute(lent, attribute),
        },
    }
}

// ---- a plain reading of the definitions, on any bytes

/// The answer by `crates/paths/specs/Matching.antt`, of the entries, names and bindings that the
/// bytes hold.
pub fn plain(kind: Kind, lent: Lent, attribute: &[u8]) -> Answer {
    let path = entries::read(lent.area);
    let matching = || path.iter().filter(|alternative| matches(lent, alternative));
    match kind {
        Kind::Selector => Answer::Selects(matching().next().is_some()),
        Kind::Field => Answer::Reaches {
            element: matching().any(|path| path.attribute.is_none()).into(),
            attribute: matching()
                .filter_map(|path| path.attribute.as_ref())
                .any(|test| local_fits(test, after_colon(attribute)))
                .into(),
        },
    }
}

/// The steps take all names below the base element, or with `.//` the last ones.
fn matches(lent: Lent, alternative: &Alternative) -> bool {
    let below = lent.depth.saturating_sub(lent.base) as usize;
    let steps = alternative.steps.len();
    let enough = match alternative.descendant {
        true => steps <= below,
        false => steps == below,
    };
    enough
        && alternative
            .steps
            .iter()
            .rev()
            .enumerate()
            .all(|(above, step)| {
                let (space, local) = names::read(lent.names, lent.depth as usize - above);
                prefix_fits(lent, step, space) && local_fits(step, local)
            })
}

fn prefix_fits(lent: Lent, step: &Test, space: &[u8]) -> bool {
    let Some(prefix) = &step.prefix else {
        return true;
    };
    let found = find(lent.own, lent.schema, lent.target, prefix);
    space_fits(uri_of(&found, lent.own, lent.schema), space)
}

fn local_fits(test: &Test, local: &[u8]) -> bool {
    test.local.as_ref().is_none_or(|wanted| wanted == local)
}

// ---- comparing

/// The original's answer, of which each node that is reached must be one hit, and by a plain reading the same.
#[track_caller]
pub fn compared(case: &Case) -> Answer {
    let (due, given, plain) = answers(case).expect("a path that is read");
    if given != due || plain != due {
        let differ = |case: &Case| {
            answers(case).is_some_and(|(due, given, plain)| given != due || plain != due)
        };
        let small = shrunk(case.clone(), smaller, differ);
        let (due, given, plain) = answers(&small).expect("a path that is read");
        panic!(
            "answered {given:?}, and {due:?} is due; by a plain reading {plain:?}\n{small:#?}\n\
             found by {case:?}"
        );
    }
    by_routes(case).expect("a path that is read")
}

/// The answer that is due, the one that is given, and the one by a plain reading.
fn answers(case: &Case) -> Option<(Answer, Answer, Answer)> {
    let due = by_routes(case)?.once();
    let bytes = Bytes::of(case)?;
    let (lent, attribute) = (bytes.lent(case), case.attribute.as_bytes());
    let given = given(case.kind(), lent, attribute);
    let plain = plain(case.kind(), lent, attribute);
    Some((due, given, plain))
}

/// The case with less in one place.
fn smaller(case: &Case) -> Box<dyn Iterator<Item = Case> + '_> {
    let records = (0..case.records.len())
        .filter_map(|at| without(&case.records, case.number, at))
        .map(|(records, number)| Case {
            records,
            number,
            ..case.clone()
        });
    let names = (0..case.names.len()).map(|at| without_name(case, at));
    let paths = shorter_texts(case.path()).map(|path| case.with_path(path));
    let attributes = shorter_texts(&case.attribute).map(|attribute| Case {
        attribute,
        ..case.clone()
    });
    let texts = (0..case.names.len()).flat_map(move |at| {
        let names = shorter_name(&case.names[at]);
        names.map(move |name| with_name(case, at, name))
    });
    let parts = records.chain(names).chain(paths);
    Box::new(parts.chain(attributes).chain(texts))
}

fn shorter_name(name: &Name) -> impl Iterator<Item = Name> {
    let spaces = shorter_texts(&name.space).map(|space| Name {
        space,
        ..name.clone()
    });
    let qualified = shorter_texts(&name.qualified).map(|qualified| Name {
        qualified,
        ..name.clone()
    });
    spaces.chain(qualified)
}

fn shorter_texts(text: &str) -> impl Iterator<Item = String> {
    shorter(text.as_bytes()).filter_map(|text| String::from_utf8(text).ok())
}

fn without_name(case: &Case, at: usize) -> Case {
    let mut case = case.clone();
    case.names.remove(at);
    case.depth -= usize::from(at < case.depth);
    case.base -= usize::from(at < case.base);
    case
}

fn with_name(case: &Case, at: usize, name: Name) -> Case {
    let mut case = case.clone();
    case.names[at] = name;
    case
}
