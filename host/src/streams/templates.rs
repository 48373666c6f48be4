//! Templates: ID and NS records.

use std::iter;

use crate::model::bytes::Text;
use crate::model::definitions::{BINDINGS_MAX, CONSTRAINTS_MAX};
use crate::model::records::{Id, Ns, Record};
use crate::paths::{self, Kind};
use crate::random::Random;

/// Names of constraints: some bear the same one, and refers name them.
const NAMES: [&str; 5] = ["k", "u", "f", "", "n\u{E9}"];

/// Selectors that select something in most documents.
#[rustfmt::skip]
const SELECTORS: [&str; 19] = [
    "r", "r", ".//r", ".//r", ".", "*", ".//.", ".//*", "a/r", "r|a", "r|r|.", "p:r", ".//q:*",
    "x y:r", "\u{E9}", ".//\u{E9}", ".//\u{10400}:r", ".//\u{10400}:*", ".//p:*",
];

/// Fields that hit something in most documents.
#[rustfmt::skip]
const FIELDS: [&str; 22] = [
    "@id", "@id", "@id", "@id", "@x", "@*", ".", "a", "a", ".//a", "b|a", "@id|a", "a/@id", ".//@id", "p:a",
    "p:a/@q:id", "child::a/attribute::id", "xml:a|@id", "@\u{E9}", "@\u{E9}", "@\u{10400}:\u{E9}", "\u{E9}",
];

/// Fields that reach a node by two alternatives in many documents. They are drawn less often: a run that meets
/// such a node is not held against the original.
#[rustfmt::skip]
const TWO_ROUTES: [&str; 7] = [
    "a|a", "a|.//a", ".|.//.", "@id|@id", "@x|@id|@*", ".//@id|@p:id", "*|b|.//a",
];

/// Paths that do not read.
const UNREAD: [&str; 7] = ["a//b", "a|", ".//", "/a", "a/", "-a", ""];

/// Prefixes that these ask for, and others.
#[rustfmt::skip]
const PREFIXES: [&str; 12] = [
    "p", "p", "p", "q", "q", "xy", "xy", "xml", "", "o", "\u{10400}", "\u{10400}",
];
const URIS: [&str; 6] = ["u", "u", "v", "", "w", "\u{3B1}"];

/// Constraints with their bindings behind them and schema-wide ones anywhere: few of each, or as many as
/// are taken and one more.
pub fn template(random: &mut Random) -> Vec<Record> {
    let mut records = Vec::new();
    let ids = match random.below(40) {
        0 => CONSTRAINTS_MAX + random.below(2),
        1 => 0,
        _ => 1 + random.below(5),
    };
    bindings(random, &mut records, 0);
    for _ in 0..ids {
        let id = id(random);
        let referring = (id.kind < 2 && random.once_in(3)).then(|| referring(random, &id));
        for id in iter::once(id).chain(referring) {
            let fields = id.fields.len();
            records.push(Record::Id(id));
            bindings(random, &mut records, 1 + fields);
        }
    }
    if ids > 0 && random.once_in(40) {
        fill(random, &mut records);
    }
    records
}

/// Some bindings with targets up to this one.
fn bindings(random: &mut Random, records: &mut Vec<Record>, highest: usize) {
    for _ in 0..random.pick(&[0, 0, 0, 1, 1, 2, 4]) {
        let target = random.below(highest + 1) as u8;
        records.push(Record::Ns(binding(random, target)));
    }
}

/// A schema-wide prefix that is bound already may be bound again.
fn binding(random: &mut Random, target: u8) -> Ns {
    Ns {
        target,
        prefix: random.pick(&PREFIXES).into(),
        uri: random.pick(&URIS).into(),
    }
}

/// Bindings up to the most that are taken, or one more.
fn fill(random: &mut Random, records: &mut Vec<Record>) {
    let more = random.below(2);
    while records
        .iter()
        .filter(|it| matches!(it, Record::Ns(_)))
        .count()
        < BINDINGS_MAX + more
    {
        let target = random.pick(&[1, 2]);
        records.push(Record::Ns(binding(random, target)));
    }
}

fn id(random: &mut Random) -> Id {
    let kind = random.below(3) as u8;
    // A refer of a unique or key has no say.
    let is_referring = if kind == 2 { 7 } else { 1 };
    let refer = (random.below(8) < is_referring).then(|| random.pick(&NAMES).into());
    let fields = random.pick(&[1, 1, 1, 1, 2, 2, 3, 4]);
    Id {
        kind,
        name: random.pick(&NAMES).into(),
        flag: refer.is_some().into(),
        refer,
        selector: path(random, Kind::Selector, &SELECTORS),
        fields: (0..fields).map(|_| field(random)).collect(),
    }
}

/// A keyref to a unique or key, of the same fields: where it selects the same elements, its tuples are answered.
fn referring(random: &mut Random, to: &Id) -> Id {
    Id {
        kind: 2,
        name: random.pick(&NAMES).into(),
        flag: 1,
        refer: Some(to.name.clone()),
        selector: match random.once_in(2) {
            true => to.selector.clone(),
            false => path(random, Kind::Selector, &SELECTORS),
        },
        fields: to.fields.clone(),
    }
}

fn field(random: &mut Random) -> Text {
    match random.once_in(24) {
        true => random.pick(&TWO_ROUTES).into(),
        false => path(random, Kind::Field, &FIELDS),
    }
}

/// A path of a list; now and then any other, which need not read.
fn path(random: &mut Random, kind: Kind, listed: &[&str]) -> Text {
    let path = match random.below(48) {
        0 => random.pick(&UNREAD).into(),
        1 => paths::grammatical(random, kind),
        2 => paths::readable(random, kind),
        3 => {
            let path = paths::grammatical(random, kind);
            paths::edited(random, &path)
        }
        4 if random.once_in(6) => {
            let path = random.pick(listed);
            paths::with_other_space(random, path)
        }
        _ => random.pick(listed).into(),
    };
    path.into_bytes()
}
