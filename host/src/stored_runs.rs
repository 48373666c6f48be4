//! The stored runs, `crates/stored_runs/stdin`: records, each with what the original said of it. They are made
//! beside the original, and read back.

use std::collections::BTreeMap;

use crate::beside::{self, Beside, LeftOut, Told, wording};
use crate::made::one_run;
use crate::model::bytes::{
    Text, put_text, put_two, take_byte, take_frame, take_text, take_texts, take_two,
};
use crate::model::records::{Id, Record, parse};
use crate::model::reports::Rp;
use crate::model::session::{Session, World};
use crate::oracle::session;
use crate::random::Random;
use crate::streams::{self, AMPLE};

/// A report as the original can say it: not the number of its scope, nor of its tuple, but the name of its
/// constraint and the keys of the tuple. What a kind does not use is 0 or empty.
#[derive(Debug, Clone, PartialEq, Eq)]
pub struct Said {
    pub kind: u8,
    pub field: u8,
    pub name: Text,
    pub keys: Vec<Text>,
}

/// A record that is taken, and what is said of it.
#[derive(Debug, Clone, PartialEq, Eq)]
pub struct Event {
    pub record: Vec<u8>,
    pub said: Vec<Said>,
}

/// From set-up on.
pub type Run = Vec<Event>;

// ---- the file

/// A number of runs; of each a number of records; of each record its bytes, a count byte and so many reports;
/// of each report kind, field, name, a count byte and the keys. `END` is behind the runs.
pub fn file(runs: &[Run]) -> Vec<u8> {
    let mut file = Vec::new();
    put_two(&mut file, runs.len());
    for run in runs {
        file.extend(bytes(run));
    }
    file.extend(END);
    file
}

/// By this the program `stored_runs` knows a file that is cut off.
const END: &[u8] = b"E";

fn bytes(run: &Run) -> Vec<u8> {
    let mut bytes = Vec::new();
    put_two(&mut bytes, run.len());
    for Event { record, said } in run {
        bytes.extend(record);
        bytes.push(said.len().try_into().expect("a count of one byte"));
        for it in said {
            bytes.extend([it.kind, it.field]);
            put_text(&mut bytes, &it.name);
            bytes.push(it.keys.len().try_into().expect("a count of one byte"));
            for key in &it.keys {
                put_text(&mut bytes, key);
            }
        }
    }
    bytes
}

/// The runs of a file, which must hold nothing else.
pub fn read(file: &[u8]) -> Vec<Run> {
    let mut rest = file;
    let runs = take_runs(&mut rest).expect("the file ends inside a run");
    assert_eq!(rest, END, "behind the runs");
    runs
}

fn take_runs(rest: &mut &[u8]) -> Option<Vec<Run>> {
    (0..take_two(rest)?).map(|_| take_run(rest)).collect()
}

fn take_run(rest: &mut &[u8]) -> Option<Run> {
    (0..take_two(rest)?).map(|_| take_event(rest)).collect()
}

fn take_event(rest: &mut &[u8]) -> Option<Event> {
    let record = take_frame(rest)?.into();
    let said: Option<_> = (0..take_byte(rest)?).map(|_| take_said(rest)).collect();
    Some(Event {
        record,
        said: said?,
    })
}

fn take_said(rest: &mut &[u8]) -> Option<Said> {
    let (kind, field) = (take_byte(rest)?, take_byte(rest)?);
    let name = take_text(rest)?;
    let count = take_byte(rest)?;
    Some(Said {
        kind,
        field,
        name,
        keys: take_texts(rest, count)?,
    })
}

/// What the program `stored_runs` is to write.
pub fn replayed(runs: &[Run]) -> String {
    let records: usize = runs.iter().map(Vec::len).sum();
    format!("{} runs, {records} records, 0 differ\n", runs.len())
}

// ---- made beside the original

/// How many runs are kept that report a kind, and how long they are at most, so that the file stays small.
const OF_A_KIND: usize = 90;
const LONGEST: usize = 700;

/// Document 01's run, then random ones: the first few that report each kind. None is left out beside the
/// original.
pub fn made() -> Vec<Run> {
    let one = one_run();
    let records: Vec<Vec<u8>> = one.iter().map(Record::bytes).collect();
    let mut runs = vec![run(&records).expect("a run of which both say the same")];
    let mut wanted: BTreeMap<u8, usize> = (1..=6).map(|kind| (kind, OF_A_KIND)).collect();
    let mut random = Random::new(0x7275);
    while !wanted.is_empty() {
        let stream = streams::well_formed(&mut random);
        if stream.records.concat().len() > LONGEST {
            continue;
        }
        let Some(run) = run(&stream.records) else {
            continue;
        };
        let kinds = kinds(&run);
        if bytes(&run).len() <= LONGEST && kinds.iter().any(|kind| wanted.contains_key(kind)) {
            for kind in kinds {
                wanted.entry(kind).and_modify(|left| *left -= 1);
            }
            wanted.retain(|_, left| *left > 0);
            runs.push(run);
        }
    }
    runs
}

/// The kinds that a run reports, each once.
fn kinds(run: &Run) -> Vec<u8> {
    let said = run.iter().flat_map(|event| &event.said);
    let mut kinds: Vec<u8> = said.map(|it| it.kind).collect();
    kinds.sort();
    kinds.dedup();
    kinds
}

/// The records that are taken, each with what is said of it: by the model, whose reports have the original's
/// very words. None where the run is left out.
fn run(records: &[Vec<u8>]) -> Option<Run> {
    let mut world = World::set_up(AMPLE, 0);
    let mut beside = Beside::default();
    let mut run = Vec::new();
    for bytes in records {
        let before = world.decode().expect("a session that is well formed");
        if world.step(bytes) != 0 {
            continue;
        }
        if LeftOut::of(&world).is_some() {
            return None;
        }
        let after = world.decode().expect("a session that is well formed");
        let record = parse(bytes).expect("a record that was taken");
        beside
            .take(&record, &before, &after)
            .expect("the model as the original");
        let new = &after.reports[before.reports.len()..];
        run.push(Event {
            record: bytes.clone(),
            said: new.iter().map(|report| said(report, &after)).collect(),
        });
    }
    Some(run)
}

fn said(report: &Rp, session: &Session) -> Said {
    let definition = &session.definitions.ids[usize::from(report.constraint)];
    let tuple = report.tuple.checked_sub(1);
    let keys = tuple.map(|place| session.tuples[place as usize].keys.clone());
    Said {
        kind: report.kind,
        field: report.field,
        name: definition.id.name.clone(),
        keys: keys.unwrap_or_default(),
    }
}

// ---- held against the original

/// Tells the original of a run. The first record of which it says something else than what is stored, if there
/// is one, with both.
pub fn differing(run: &Run) -> Option<(usize, Vec<String>, Vec<Said>)> {
    let records: Vec<Record> = run
        .iter()
        .map(|event| parse(&event.record).expect("a record that was taken"))
        .collect();
    let definitions = records.iter().filter_map(|record| match Told::of(record) {
        Told::Definition(definition) => Some(definition),
        _ => None,
    });
    let mut session = session::Session::new(&definitions.collect::<Vec<_>>());
    let ids: Vec<&Id> = records
        .iter()
        .filter_map(|record| match record {
            Record::Id(id) => Some(id),
            _ => None,
        })
        .collect();
    for (place, (record, event)) in (1..).zip(records.iter().zip(run)) {
        beside::tell(&mut session, &Told::of(record));
        let mut messages = session.messages();
        if *record == Record::Fi {
            messages.extend(session.keyref_messages());
        }
        if !are_worded(&messages, &event.said, &ids) {
            return Some((place, messages, event.said.clone()));
        }
    }
    None
}

/// Whether each message has the words of its report, against one of the constraints that bear its name.
fn are_worded(messages: &[String], said: &[Said], ids: &[&Id]) -> bool {
    let is_worded = |message: &String, said: &Said| {
        let mut named = ids.iter().filter(|id| id.name == said.name);
        named.any(|id| {
            (said.kind != 5 || id.refer.is_some())
                && wording(said.kind, said.field, id, &said.keys) == *message
        })
    };
    messages.len() == said.len()
        && messages
            .iter()
            .zip(said)
            .all(|(message, said)| is_worded(message, said))
}
