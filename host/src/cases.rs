//! What prefix resolution and matching are fed: random definition stores, paths and open elements.

use std::str::from_utf8;

use crate::definitions::{Binding, Constraint, Record, constraints, kind_of};
use crate::entries::{Alternative, Test};
use crate::matching::Case;
use crate::model::matching::XML_NAMESPACE;
use crate::names::Name;
use crate::oracle::reader::{Path, read};
use crate::paths::{self, Kind};
use crate::random::Random;

/// Prefixes that are bound. Some stand in no path, and `xml` is never looked up.
pub const PREFIXES: [&str; 12] = [
    "p", "q", "", "xml", "*", "a*", "child", "\u{E9}", "_.-1", "p ", "x:y", "xm",
];

/// Namespaces, and what prefixes are bound to.
pub const URIS: [&str; 6] = ["u", "v", "", "urn:p", XML_NAMESPACE, "\u{E9}"];

/// Paths of which several alternatives can reach a node. A field alone can have those behind.
const LISTED: [&str; 12] = [
    ".",
    ".//.",
    "a",
    "*",
    "a|a",
    ".//a|a|.//*",
    "p:a|*:a|a",
    "@a|@*",
    "@id|.//@id|@p:id",
    "a/@id|*/@*|@b",
    ".//@*|.//p:*/@*",
    "@\u{E9}|attribute::q:\u{E9}|.",
];

/// The depth up to which elements are open.
const DEPTH_MAX: usize = 64;

/// Up to four constraints, each with the bindings of its paths behind it; schema-wide bindings stand
/// anywhere. A prefix may be bound again.
pub fn records(random: &mut Random) -> Vec<Record> {
    let mut records = bindings(random, 0);
    for number in 0..=random.below(4) {
        let fields = 1 + random.below(4);
        records.push(Record::Id(constraint(random, number, fields)));
        records.extend(bindings(random, 1 + fields));
    }
    records
}

/// Bindings for targets up to this one. A few prefixes are bound more often than others.
fn bindings(random: &mut Random, highest: usize) -> Vec<Record> {
    let count = random.below(4 * highest + 4);
    let mut binding = || {
        let prefix = match random.below(3) {
            0 => random.pick(&PREFIXES),
            _ => random.pick(&PREFIXES[..4]),
        };
        Record::Ns(Binding {
            target: random.below(highest + 1) as u8,
            prefix: prefix.into(),
            uri: random.pick(&URIS).into(),
        })
    };
    (0..count).map(|_| binding()).collect()
}

/// A constraint whose selector is the element itself, and whose fields are read.
fn constraint(random: &mut Random, number: usize, fields: usize) -> Constraint {
    let field = |_| random.pick(&["@id", "p:a", ".//NS|."]).into();
    Constraint {
        fields: (0..fields).map(field).collect(),
        kind: random.below(3) as u8,
        name: format!("c{number}"),
        refer: random.pick(&[None, Some("c0")]).map(Into::into),
        selector: random.pick(&[".", "./.", " . "]).into(),
    }
}

/// A random case. Its path is read, and about half the time the names below the base element were
/// made to match one of its alternatives.
pub fn case(random: &mut Random) -> Case {
    let records = records(random);
    let constraints: Vec<&Constraint> = constraints(&records).collect();
    let number = random.below(constraints.len());
    let target = 1 + random.below(1 + constraints[number].fields.len()) as u8;
    let case = Case {
        records,
        number,
        target,
        names: Vec::new(),
        base: 0,
        depth: 0,
        attribute: String::new(),
    };
    let path = path(random, kind_of(target));
    opened(random, case.with_path(path))
}

/// A path that is read.
fn path(random: &mut Random, kind: Kind) -> String {
    loop {
        let path = match random.below(6) {
            0 => random.pick(&LISTED).into(),
            1 => many_steps(random),
            2 => paths::readable(random, kind),
            3 => twice(&paths::readable(random, kind)),
            _ => paths::grammatical(random, kind),
        };
        if path.len() <= 255 && read(kind, &path).is_some() {
            return path;
        }
    }
}

/// Each node that the path reaches is reached twice.
fn twice(path: &str) -> String {
    format!("{path}|{path}")
}

/// As many steps as elements can be open, or fewer.
fn many_steps(random: &mut Random) -> String {
    let count = 1 + random.below(DEPTH_MAX);
    let steps: Vec<&str> = (0..count)
        .map(|_| random.pick(&["a", "b", "a", "*", "p:a", "."]))
        .collect();
    random.pick(&["", ".//"]).to_string() + &steps.join("/")
}

/// The case with elements: some down to the base element, some below it, and some that have ended.
fn opened(random: &mut Random, mut case: Case) -> Case {
    let alternatives = read(case.kind(), case.path()).expect("a path that is read");
    let mut below = matched(random, &case, &alternatives);
    if random.once_in(2) {
        changed(random, &mut below);
    }
    let most = random.pick(&[1, 3, DEPTH_MAX]);
    let above = random.below(most.min(DEPTH_MAX - below.len()) + 1);
    case.attribute = attribute(random, &alternatives);
    case.base = above;
    case.depth = above + below.len();
    case.names = (0..above).map(|_| name(random)).collect();
    case.names.extend(below);
    case.names
        .extend((0..random.below(3)).map(|_| name(random)));
    case
}

/// Names that an alternative matches, unless a prefix of it is bound to nothing that an element has.
fn matched(random: &mut Random, case: &Case, alternatives: &[Alternative]) -> Vec<Name> {
    let at = random.below(alternatives.len());
    let path = Path::of(&case.records, case.number, case.target).expect("a path that is read");
    let before = alternatives[..at].iter().map(|path| path.steps.len()).sum();
    let spaces = path.spaces().into_iter().skip(before);
    let steps = &alternatives[at].steps;
    let mut names: Vec<Name> = (0..random.below(3))
        .filter(|_| alternatives[at].descendant && steps.len() < DEPTH_MAX - 2)
        .map(|_| name(random))
        .collect();
    for (step, space) in steps.iter().zip(spaces) {
        let any = name(random);
        names.push(Name {
            space: space.map_or(any.space, Into::into),
            qualified: qualified(random, &local(step).unwrap_or(any.qualified)),
        });
    }
    names
}

/// A name more or less, or another one.
fn changed(random: &mut Random, names: &mut Vec<Name>) {
    let at = random.below(names.len() + 1);
    let other = name(random);
    match random.below(4) {
        0 if names.len() < DEPTH_MAX => names.insert(at, other),
        1 if at < names.len() => drop(names.remove(at)),
        2 if at < names.len() => names[at].space = other.space,
        _ if at < names.len() => names[at].qualified = other.qualified,
        _ => {}
    }
}

fn name(random: &mut Random) -> Name {
    let locals = [
        "a", "b", "ab", "b-1", "child", "\u{E9}", "\u{B7}", "lang", "*", "",
    ];
    let local = random.pick(&locals);
    Name {
        space: random.pick(&URIS).into(),
        qualified: qualified(random, local),
    }
}

/// A name with this local part.
fn qualified(random: &mut Random, local: &str) -> String {
    random.pick(&["", "", "x:", "a:b:", ":"]).to_string() + local
}

/// The name of an attribute, often of one that the path asks for.
fn attribute(random: &mut Random, alternatives: &[Alternative]) -> String {
    let asked: Vec<&Test> = alternatives
        .iter()
        .filter_map(|path| path.attribute.as_ref())
        .collect();
    let other = random.pick(&["id", "a", "b", "*", "", "\u{E9}"]);
    let local = match asked.len() {
        0 => None,
        count => local(asked[random.below(count)]).filter(|_| !random.once_in(4)),
    };
    qualified(random, &local.unwrap_or(other.into()))
}

fn local(test: &Test) -> Option<String> {
    let text = |local: &Vec<u8>| from_utf8(local).expect("a part of a path").into();
    test.local.as_ref().map(text)
}
