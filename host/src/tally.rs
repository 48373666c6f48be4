//! How often each answer was seen, so that a comparison that met only one side of a question fails.

use std::collections::BTreeMap;
use std::fmt::Debug;

use crate::beside::LeftOut;
use crate::entries::Alternative;
use crate::features::Feature;
use crate::identity::Checked;
use crate::matching::Answer;
use crate::model::counts::DEPTH_MAX;
use crate::model::scopes::SCOPES_MAX;
use crate::model::selections::SELECTIONS_MAX;
use crate::model::session::{Session, World};
use crate::paths::Kind;
use crate::reader::Due;

/// A door's yes or no held against the one that is due.
#[derive(Default)]
pub struct Compared {
    pub yes: usize,
    pub no: usize,
}

impl Compared {
    #[track_caller]
    pub fn take(&mut self, given: bool, due: bool, of: impl Debug) {
        assert_eq!(given, due, "{of:X?}");
        match due {
            true => self.yes += 1,
            false => self.no += 1,
        }
    }

    pub fn all(&self) -> usize {
        self.yes + self.no
    }

    #[track_caller]
    pub fn assert_each_at_least(&self, least: usize) {
        let Self { yes, no } = self;
        assert!(
            *yes >= least && *no >= least,
            "{yes} yes and {no} no, not {least} of each"
        );
    }
}

/// How often each of some things was seen.
#[derive(Debug)]
pub struct Seen<T>(BTreeMap<T, usize>);

impl<T: Ord + Debug> Seen<T> {
    pub fn take(&mut self, what: T) {
        *self.0.entry(what).or_default() += 1;
    }

    pub fn take_all(&mut self, all: impl IntoIterator<Item = T>) {
        all.into_iter().for_each(|what| self.take(what));
    }

    /// Adds what another tally has.
    pub fn add(&mut self, other: Self) {
        for (what, count) in other.0 {
            *self.0.entry(what).or_default() += count;
        }
    }

    pub fn all(&self) -> usize {
        self.0.values().sum()
    }

    /// `15: 3, 16: 40`.
    pub fn list(&self) -> String {
        let counts = self.0.iter();
        let counts: Vec<String> = counts
            .map(|(what, count)| format!("{what:?}: {count}"))
            .collect();
        counts.join(", ")
    }

    #[track_caller]
    pub fn assert_each_at_least(&self, of: impl IntoIterator<Item = T>, least: usize) {
        for what in of {
            let count = self.0.get(&what).copied().unwrap_or(0);
            assert!(count >= least, "{what:?} was seen {count} times: {self:?}");
        }
    }
}

impl<T> Default for Seen<T> {
    fn default() -> Self {
        Self(BTreeMap::new())
    }
}

/// How often paths of each kind got each reason; 0 is a pass.
#[derive(Default)]
pub struct Reasons(BTreeMap<(Kind, u8), usize>);

impl Reasons {
    pub fn take(&mut self, kind: Kind, reason: Option<u8>) {
        *self.0.entry((kind, reason.unwrap_or(0))).or_default() += 1;
    }

    /// All reasons of both kinds, but that a field is never turned back as a selector is (X8).
    #[track_caller]
    pub fn assert_each_at_least(&self, least: usize) {
        for kind in Kind::BOTH {
            for reason in 0..=14 {
                let count = self.0.get(&(kind, reason)).copied().unwrap_or(0);
                let possible = (kind, reason) != (Kind::Field, 8);
                let enough = if possible { count >= least } else { count == 0 };
                assert!(enough, "{kind:?} X{reason}: {count}");
            }
        }
    }
}

/// How often the path checker gave each answer.
#[derive(Default)]
pub struct Answers {
    reasons: Reasons,
    refusals: BTreeMap<u8, usize>,
}

impl Answers {
    pub fn take(&mut self, kind: u8, answer: Checked) {
        let reason = match answer {
            Checked::Pass => None,
            Checked::Reason(reason) => Some(reason),
            Checked::Refused(number) => {
                *self.refusals.entry(number).or_default() += 1;
                return;
            }
        };
        self.reasons.take(Kind::BOTH[usize::from(kind)], reason);
    }

    /// Adds what another tally has.
    pub fn add(&mut self, other: Self) {
        for (answer, count) in other.reasons.0 {
            *self.reasons.0.entry(answer).or_default() += count;
        }
        for (number, count) in other.refusals {
            *self.refusals.entry(number).or_default() += count;
        }
    }

    pub fn all(&self) -> usize {
        self.reasons.0.values().chain(self.refusals.values()).sum()
    }

    pub fn refused(&self) -> usize {
        self.refusals.values().sum()
    }

    /// A pass and all reasons of both kinds, as above.
    #[track_caller]
    pub fn assert_reasons_at_least(&self, least: usize) {
        self.reasons.assert_each_at_least(least);
    }

    /// The three refusals.
    #[track_caller]
    pub fn assert_refusals_at_least(&self, least: usize) {
        for number in 3..=5 {
            let count = self.refusals.get(&number).copied().unwrap_or(0);
            assert!(count >= least, "refused {number}: {count}");
        }
    }
}

/// How often paths were read or not, and how often a read one had what a path can have.
#[derive(Debug, Default)]
pub struct Readings(BTreeMap<&'static str, usize>);

impl Readings {
    const READ: [&str; 4] = ["selector", "field", "unread selector", "unread field"];
    const HAD: [&str; 8] = [
        "several alternatives",
        "`.//`",
        "no step",
        "several steps",
        "a prefix",
        "`*`",
        "an attribute",
        "an attribute with a prefix",
    ];

    pub fn take(&mut self, kind: Kind, due: &Due) {
        let [selector, field, unread_selector, unread_field] = Self::READ;
        match (due, kind) {
            (Due::NoRoom, _) => self.count("no room"),
            (Due::Unread, Kind::Selector) => self.count(unread_selector),
            (Due::Unread, Kind::Field) => self.count(unread_field),
            (Due::Read(path), kind) => {
                self.count(if kind == Kind::Field { field } else { selector });
                for (had, name) in parts_of(path).into_iter().zip(Self::HAD) {
                    if had {
                        self.count(name);
                    }
                }
            }
        }
    }

    fn count(&mut self, name: &'static str) {
        *self.0.entry(name).or_default() += 1;
    }

    /// Adds what another tally has.
    pub fn add(&mut self, other: Self) {
        for (name, count) in other.0 {
            *self.0.entry(name).or_default() += count;
        }
    }

    pub fn of(&self, name: &str) -> usize {
        self.0.get(name).copied().unwrap_or(0)
    }

    /// How many paths there were.
    pub fn all(&self) -> usize {
        let read = Self::READ.map(|name| self.of(name));
        self.of("no room") + read.iter().sum::<usize>()
    }

    /// Paths of both kinds that were read and that were not, and read ones with each part.
    #[track_caller]
    pub fn assert_each_at_least(&self, least: usize) {
        for name in Self::READ.into_iter().chain(Self::HAD) {
            assert!(self.of(name) >= least, "{name}: {}", self.of(name));
        }
    }
}

/// Whether a path has each of the parts that are counted.
fn parts_of(path: &[Alternative]) -> [bool; 8] {
    let any = |holds: fn(&Alternative) -> bool| path.iter().any(holds);
    [
        path.len() > 1,
        any(|alternative| alternative.descendant),
        any(|alternative| alternative.steps.is_empty()),
        any(|alternative| alternative.steps.len() > 1),
        any(|alternative| alternative.steps.iter().any(|test| test.prefix.is_some())),
        any(|alternative| alternative.steps.iter().any(|test| test.local.is_none())),
        any(|alternative| alternative.attribute.is_some()),
        any(|alternative| {
            let test = alternative.attribute.as_ref();
            test.is_some_and(|test| test.prefix.is_some())
        }),
    ]
}

/// How often a selector matched or not, and how often none, one or more alternatives of a field
/// reached an element, and an attribute.
#[derive(Debug, Default)]
pub struct Matches {
    pub selects: [usize; 2],
    pub element: [usize; 3],
    pub attribute: [usize; 3],
}

impl Matches {
    pub fn take(&mut self, answer: Answer) {
        match answer {
            Answer::Selects(yes) => self.selects[usize::from(yes)] += 1,
            Answer::Reaches { element, attribute } => {
                self.element[element.min(2)] += 1;
                self.attribute[attribute.min(2)] += 1;
            }
        }
    }

    #[track_caller]
    pub fn assert_each_at_least(&self, least: usize) {
        let counts = [&self.selects[..], &self.element, &self.attribute].concat();
        assert!(counts.iter().all(|&count| count >= least), "{self:?}");
    }

    /// Where answers were taken in which a node is one hit: none and one.
    #[track_caller]
    pub fn assert_hits_at_least(&self, least: usize) {
        let counts = [&self.selects[..], &self.element[..2], &self.attribute[..2]].concat();
        assert!(counts.iter().all(|&count| count >= least), "{self:?}");
    }
}

/// What streams of records met.
#[derive(Debug, Default)]
pub struct Met {
    pub streams: usize,
    /// How often each reply was given, 0 for a record that was taken.
    pub replies: Seen<u32>,
    /// How many reports of each kind there were.
    pub kinds: Seen<u8>,
    /// How often a limit was met to the byte or to the one.
    pub edges: Seen<Edge>,
    /// How often records had what streams are made to have.
    pub features: Seen<Feature>,
    /// How often each reply was given to a buffer,
    pub runs: Seen<u32>,
    /// and how the run over it ended.
    pub over: Seen<Over>,
    /// The closed unique and key scopes that were counted by the tree.
    pub scopes: usize,
    /// The fields of tuples that were shown.
    pub fields: usize,
    /// The streams that were held against the original to their end,
    pub beside: usize,
    /// and those that are not, by what they met, whether the original is there or not.
    pub left_out: Seen<LeftOut>,
}

/// How the run over a buffer ended.
#[derive(Debug, Clone, Copy, PartialEq, Eq, PartialOrd, Ord)]
pub enum Over {
    /// The buffer had no byte,
    Empty,
    /// or no whole record.
    NoneWhole,
    /// All of it was taken,
    AllTaken,
    /// or all but an end that is not whole.
    RestLeft,
    /// Its first record was refused,
    FirstRefused,
    /// or one behind others that were taken,
    LaterRefused,
    /// or a header that states over 16,384.
    HeaderRefused,
}

impl Over {
    pub const ALL: [Self; 7] = [
        Self::Empty,
        Self::NoneWhole,
        Self::AllTaken,
        Self::RestLeft,
        Self::FirstRefused,
        Self::LaterRefused,
        Self::HeaderRefused,
    ];
}

/// A limit, met exactly.
#[derive(Debug, Clone, Copy, PartialEq, Eq, PartialOrd, Ord)]
pub enum Edge {
    /// A record filled the store to its last byte: the definition store, the tuple store, the report store.
    Full(Store),
    /// A record was refused for one byte.
    OneShort(Store),
    /// 64 elements open, 16 scopes, 32 selections.
    Depth,
    Scopes,
    Selections,
}

#[derive(Debug, Clone, Copy, PartialEq, Eq, PartialOrd, Ord)]
pub enum Store {
    Definitions,
    Tuples,
    Reports,
}

impl Store {
    pub const ALL: [Self; 3] = [Self::Definitions, Self::Tuples, Self::Reports];

    /// The refusal for want of room in it.
    fn refusal(self) -> u32 {
        match self {
            Self::Definitions => 18,
            Self::Tuples => 15,
            Self::Reports => 16,
        }
    }

    fn of(self, world: &mut World) -> &mut Vec<u8> {
        match self {
            Self::Definitions => &mut world.definition_store,
            Self::Tuples => &mut world.tuple_store,
            Self::Reports => &mut world.report_store,
        }
    }
}

impl Edge {
    pub fn all() -> impl Iterator<Item = Self> {
        let stores = Store::ALL.into_iter();
        stores
            .flat_map(|store| [Self::Full(store), Self::OneShort(store)])
            .chain([Self::Depth, Self::Scopes, Self::Selections])
    }
}

impl Met {
    /// A record, its reply, and the world after it.
    pub fn take(&mut self, reply: u32, record: &[u8], world: &World) {
        self.replies.take(reply);
        for store in Store::ALL {
            if reply == store.refusal() {
                let mut longer = world.clone();
                store.of(&mut longer).push(0);
                if longer.step(record) != reply {
                    self.edges.take(Edge::OneShort(store));
                }
            }
        }
    }

    /// The session before and after a record that was taken, and the world after it.
    pub fn take_session(&mut self, before: &Session, after: &Session, world: &World) {
        for report in &after.reports[before.reports.len()..] {
            self.kinds.take(report.kind);
        }
        let (used, lengths) = (world.numbers, world.lengths());
        let full = |used: u64, length: usize| used == length as u64;
        for (edge, is_met) in [
            (
                Edge::Full(Store::Definitions),
                after.definitions != before.definitions
                    && full(used.definitions, lengths.definitions),
            ),
            (
                Edge::Full(Store::Tuples),
                after.tuples.len() > before.tuples.len() && full(used.tuples, lengths.tuples),
            ),
            (
                Edge::Full(Store::Reports),
                after.reports.len() > before.reports.len() && full(used.reports, lengths.reports),
            ),
            (Edge::Depth, after.names.len() == DEPTH_MAX),
            (Edge::Scopes, after.scopes.len() == SCOPES_MAX),
            (Edge::Selections, after.selections.len() == SELECTIONS_MAX),
        ] {
            if is_met {
                self.edges.take(edge);
            }
        }
    }

    /// Adds what another tally has.
    pub fn add(&mut self, other: Self) {
        self.streams += other.streams;
        self.replies.add(other.replies);
        self.kinds.add(other.kinds);
        self.edges.add(other.edges);
        self.features.add(other.features);
        self.runs.add(other.runs);
        self.over.add(other.over);
        self.scopes += other.scopes;
        self.fields += other.fields;
        self.beside += other.beside;
        self.left_out.add(other.left_out);
    }

    /// Each reply but 19, which takes a million records, each kind of report, each limit, and each feature.
    #[track_caller]
    pub fn assert_each_at_least(&self, least: usize) {
        let replies = (0..=5).chain(10..=18).chain(20..=21);
        self.replies.assert_each_at_least(replies, least);
        self.kinds.assert_each_at_least(1..=7, least);
        self.edges.assert_each_at_least(Edge::all(), least);
        self.features.assert_each_at_least(Feature::ALL, least);
        self.left_out.assert_each_at_least(LeftOut::ALL, least);
        assert!(self.scopes >= least, "{} scopes", self.scopes);
    }

    /// At least so many streams were held against the original, and at least two in three.
    #[track_caller]
    pub fn assert_beside_at_least(&self, least: usize) {
        let (beside, left_out) = (self.beside, self.left_out.all());
        assert!(
            beside >= least && beside >= 2 * left_out,
            "{beside} streams were held against the original, and {left_out} left out"
        );
    }

    /// Of buffers each reply, too, and each end.
    #[track_caller]
    pub fn assert_runs_at_least(&self, least: usize) {
        let replies = (0..=5).chain(10..=18).chain(20..=21);
        self.runs.assert_each_at_least(replies, least);
        self.over.assert_each_at_least(Over::ALL, least);
    }
}
