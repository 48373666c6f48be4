//! What the checker passes is in force (document 02, U8), through the doors: a constraint whose paths all pass with the
//! bindings that the session holds is never reported by kind 6, and with canonical paths a template gives the same tuples
//! and reports.

use host::identity::{Checked, Reply, Report, Session, Spelled, check_path, spell_path};
use host::made::{ee, es, id, leaf, ns};
use host::model::records::{Id, Record};
use host::random::Random;
use host::streams::{self, Shape};

/// The records of a template that a session takes.
fn taken(template: &[Record]) -> Vec<Record> {
    let mut session = Session::new(65_536, 0, 0);
    let is_taken = |record: &&Record| session.record(&record.bytes()) == Reply::Taken;
    template.iter().filter(is_taken).cloned().collect()
}

/// A constraint and the prefixes that a session holds for its paths: own ones by target, and the schema-wide ones.
struct Held<'a> {
    id: &'a Id,
    own: Vec<(u8, &'a [u8])>,
    schema: Vec<&'a [u8]>,
}

/// The constraints of records that were taken, by their numbers.
fn held(records: &[Record]) -> Vec<Held<'_>> {
    let mut held: Vec<Held> = Vec::new();
    let mut schema: Vec<&[u8]> = Vec::new();
    for record in records {
        match record {
            Record::Id(id) => held.push(Held {
                id,
                own: Vec::new(),
                schema: Vec::new(),
            }),
            Record::Ns(ns) if ns.target == 0 => schema.push(&ns.prefix),
            Record::Ns(ns) => {
                let latest = held.last_mut().expect("12 comes before");
                latest.own.push((ns.target, &ns.prefix));
            }
            _ => {}
        }
    }
    for constraint in &mut held {
        constraint.schema = schema.clone();
    }
    held
}

impl Held<'_> {
    /// The prefixes for the path with this target, with single spaces between, as the checker takes them.
    fn declared(&self, target: u8) -> Vec<u8> {
        let own = self.own.iter().filter(|(of, _)| *of == target);
        let prefixes: Vec<&[u8]> = own
            .map(|(_, prefix)| *prefix)
            .chain(self.schema.iter().copied())
            .collect();
        prefixes.join(&b' ')
    }

    /// Whether the door passes the selector and each field.
    fn passes(&self) -> bool {
        let fields = (2..)
            .zip(&self.id.fields)
            .map(|(target, field)| (1, target, field));
        let mut paths = [(0, 1, &self.id.selector)].into_iter().chain(fields);
        paths.all(|(kind, target, path)| {
            check_path(kind, path, &self.declared(target)) == Checked::Pass
        })
    }
}

/// The record with its paths in their one spelling; a path that the reader does not take stays.
fn canonical(record: &Record) -> Record {
    let Record::Id(id) = record else {
        return record.clone();
    };
    let text = |kind: u8, path: &Vec<u8>| {
        let mut out = [0; 255];
        match spell_path(kind, path, &mut out) {
            Spelled::Text(size) => out[..size].to_vec(),
            Spelled::Refused(_) => path.clone(),
        }
    };
    Record::Id(Id {
        selector: text(0, &id.selector),
        fields: id.fields.iter().map(|field| text(1, field)).collect(),
        ..id.clone()
    })
}

/// The replies to records, and the session behind them.
fn run<'a>(records: impl Iterator<Item = &'a Record>) -> (Vec<Reply>, Session) {
    let mut session = Session::new(65_536, 65_536, 65_536);
    let replies = records
        .map(|record| session.record(&record.bytes()))
        .collect();
    (replies, session)
}

/// The used bytes of the tuple store and of the report store.
fn stored(session: &Session) -> (&[u8], &[u8]) {
    let (numbers, stores) = (&session.numbers, &session.stores);
    (
        &stores.tuples[..numbers.tuples as usize],
        &stores.reports[..numbers.reports as usize],
    )
}

#[derive(Default)]
struct Counts {
    passed: usize,
    not_passed: usize,
    sixes: usize,
    respelled: usize,
    tuples: usize,
}

/// One template with a document: what passes has no kind 6, and canonical paths change no tuple and no report.
#[track_caller]
fn compare(template: &[Record], document: &[Record], counts: &mut Counts) {
    let template = taken(template);
    let (replies, session) = run(template.iter().chain(document));
    let shown = || {
        template
            .iter()
            .map(|it| streams::line(&it.bytes()))
            .collect::<Vec<_>>()
    };
    for (number, constraint) in held(&template).iter().enumerate() {
        let is_six = |it: Report| it.kind == 6 && usize::from(it.constraint) == number;
        let six = session.reports().any(is_six);
        match constraint.passes() {
            true => {
                assert!(
                    !six,
                    "constraint {number} passes and is not checked: {:?}",
                    shown()
                );
                counts.passed += 1;
            }
            false => counts.not_passed += 1,
        }
        counts.sixes += usize::from(six);
    }
    let spelled: Vec<Record> = template.iter().map(canonical).collect();
    counts.respelled += usize::from(spelled != template);
    let (again, other) = run(spelled.iter().chain(document));
    assert_eq!(again, replies, "{:?}", shown());
    assert_eq!(stored(&other), stored(&session), "{:?}", shown());
    for (before, after) in held(&template).iter().zip(held(&spelled)) {
        assert!(!before.passes() || after.passes(), "{:?}", shown());
    }
    counts.tuples += usize::from(session.numbers.tuples > 0);
}

#[test]
fn what_passes_is_in_force_in_random_templates() {
    let mut random = Random::new(0x0F0C);
    let mut counts = Counts::default();
    let most = 4_000;
    let count = streams::count(most);
    for _ in 0..count {
        let template = streams::template(&mut random);
        let document = streams::document(&mut random, &template, Shape::Plain);
        compare(&template, &document, &mut counts);
    }
    if count == most {
        let Counts {
            passed,
            not_passed,
            sixes,
            respelled,
            tuples,
        } = counts;
        assert!(
            passed > 2_000 && not_passed > 2_000 && sixes > 200,
            "{passed} passed, {not_passed} not, {sixes} sixes"
        );
        assert!(
            respelled > 500 && tuples > 1_000,
            "{respelled} respelled, {tuples} with tuples"
        );
    }
}

/// A name with U+1680, which is a character of names and white space that is not XML's; prefixes bound for the selector
/// alone, for a field alone, schema-wide and for nothing.
#[test]
fn what_passes_is_in_force_in_listed_templates() {
    let document = |name: &str| {
        let mut records = vec![es("t", &[0], &[])];
        records.extend(leaf(name, &[("id", "1")]));
        records.extend(leaf(name, &[("id", "1")]));
        records.extend([ee(0, ""), Record::Fi]);
        records
    };
    let rows = [
        (vec![id(1, "k", None, "a\u{1680}b", &["@id"])], true),
        (
            vec![id(1, "k", None, "p:\u{1680}", &["@id"]), ns(1, "p", "")],
            true,
        ),
        (
            vec![id(1, "k", None, "p:r", &["@p:id"]), ns(1, "p", "")],
            false,
        ),
        (
            vec![
                id(1, "k", None, "p:r", &["@p:id"]),
                ns(1, "p", ""),
                ns(2, "p", ""),
            ],
            true,
        ),
        (
            vec![ns(0, "p", ""), id(1, "k", None, "p:r", &["@p:id"])],
            true,
        ),
        (
            vec![id(1, "k", None, " child :: r / . ", &["./attribute::id"])],
            true,
        ),
        (vec![id(1, "k", None, "xml:r", &["@xml:id"])], true),
        (vec![id(1, "k", None, "r", &["@id", "a//b"])], false),
    ];
    for (template, passes) in rows {
        let mut counts = Counts::default();
        compare(&template, &document("r"), &mut counts);
        compare(&template, &document("a\u{1680}b"), &mut counts);
        assert_eq!(
            (counts.passed, counts.not_passed),
            if passes { (2, 0) } else { (0, 2) },
            "{template:?}"
        );
    }
}
