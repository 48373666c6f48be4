//! Streams of records that a session is fed from its set-up on: a template of constraints and bindings, a
//! document, FI, and among them what is out of place, damaged or past a limit. What lies near a limit comes
//! more often than by chance.

use std::fmt;

use crate::model::counts::{CELLS_MIN, Lengths, NAMES_MIN, PATHS_MIN};
use crate::model::records::{Record, framed, parse};
use crate::model::scopes::SCOPES_MAX;
use crate::model::session::World;
use crate::random::Random;
use crate::shrink::{shorter, shown, stretches};

mod documents;
mod ledgers;
mod pieces;
mod room;
mod templates;
mod wrong;

pub use documents::{Shape, document};
pub use ledgers::ledgers;
pub use pieces::in_pieces;
pub use templates::template;

/// Records, and how long the stores and areas are that are lent for them.
#[derive(Clone)]
pub struct Stream {
    pub lengths: Lengths,
    /// Bytes of the scope list behind its last whole record.
    pub tail: usize,
    /// What stores and areas are full of at set-up.
    pub fill: u8,
    pub records: Vec<Vec<u8>>,
}

/// Areas of the least lengths, and stores as a program has them.
pub const AMPLE: Lengths = Lengths {
    definitions: 65_536,
    tuples: 65_536,
    reports: 65_536,
    names: NAMES_MIN,
    scopes: SCOPES_MAX,
    cells: CELLS_MIN,
    paths: PATHS_MIN,
};

/// A well-formed document behind a template: nothing in it is refused because of the input, and stores
/// are long. A limit may still be passed.
pub fn well_formed(random: &mut Random) -> Stream {
    let template = template(random);
    let document = document(random, &template, Shape::Plain);
    let records = template.iter().chain(&document);
    Stream {
        lengths: AMPLE,
        tail: 0,
        fill: 0,
        records: records.map(Record::bytes).collect(),
    }
}

/// Stores that are long for most streams.
const SOME: usize = 8_192;

/// The stream with this number of those that a seed gives, with anything in it.
pub fn numbered(seed: u64, number: u64) -> Stream {
    // The factors of splitmix64 (Vigna, 2015), so that neighbours differ in many bits and no two seeds
    // share streams. No seed of a generator is 0.
    let mixed = seed.wrapping_mul(0x9E37_79B9_7F4A_7C15) ^ number;
    let mixed = mixed.wrapping_mul(0xBF58_476D_1CE4_E5B9);
    let mut random = Random::new((mixed ^ mixed >> 31) | 1);
    stream(&mut random)
}

/// How many streams a test takes: so many, or where HOST_STREAMS says a smaller number, that. Fewer streams
/// need not meet each answer.
pub fn count(most: u64) -> u64 {
    let said = std::env::var("HOST_STREAMS").ok();
    let said = said.map(|it| it.parse().expect("a number in HOST_STREAMS"));
    said.map_or(most, |it: u64| it.min(most))
}

/// A stream with anything in it.
pub fn stream(random: &mut Random) -> Stream {
    let template = template(random);
    let shape = documents::shape(random);
    let mut document = document(random, &template, shape);
    if random.once_in(5) {
        documents::nillable(random, &mut document);
    }
    let records = template.iter().chain(&document);
    let mut records = records.map(Record::bytes).collect();
    if random.once_in(2) {
        wrong::insert(random, &template, &mut records);
    }
    let mut lengths = AMPLE;
    if !random.once_in(16) {
        (lengths.definitions, lengths.tuples, lengths.reports) = (SOME, SOME, SOME);
    }
    let mut stream = Stream {
        lengths,
        tail: 0,
        fill: random.pick(&[0, 0, 1, 0xFF, b'T']),
        records,
    };
    room::choose(random, &mut stream);
    stream
}

impl Stream {
    /// What is lent at set-up.
    pub fn set_up(&self) -> World {
        World::set_up(self.lengths, self.fill)
    }

    /// How many bytes the scope list has.
    pub fn scope_list(&self) -> usize {
        self.lengths.scopes * room::SCOPE + self.tail
    }

    /// The stream with fewer records, or with a shorter one.
    pub fn smaller(&self) -> Box<dyn Iterator<Item = Self> + '_> {
        let with = |records| Self {
            records,
            ..self.clone()
        };
        let fewer = stretches(self.records.len()).map(move |gone| {
            let (before, behind) = (&self.records[..gone.start], &self.records[gone.end..]);
            with([before, behind].concat())
        });
        let shorter = (0..self.records.len()).flat_map(move |at| {
            shorter_records(&self.records[at]).map(move |record| {
                let mut records = self.records.clone();
                records[at] = record;
                with(records)
            })
        });
        Box::new(fewer.chain(shorter))
    }
}

/// The record with one part less, with a stretch of its body taken out and the length stated anew, or with any
/// stretch taken out: a piece of a buffer may begin anywhere.
fn shorter_records(bytes: &[u8]) -> Box<dyn Iterator<Item = Vec<u8>> + '_> {
    let mut fewer = Vec::new();
    match parse(bytes) {
        Ok(Record::Es(es)) => {
            for at in 0..es.attributes.len() {
                let mut es = es.clone();
                es.attributes.remove(at);
                fewer.push(Record::Es(es));
            }
            for at in 0..es.numbers.len() {
                let mut es = es.clone();
                es.numbers.remove(at);
                fewer.push(Record::Es(es));
            }
        }
        Ok(Record::Id(id)) => {
            for at in 0..id.fields.len() {
                let mut id = id.clone();
                id.fields.remove(at);
                fewer.push(Record::Id(id));
            }
        }
        _ => {}
    }
    let fewer = fewer.into_iter().map(|record| record.bytes());
    match bytes.split_first_chunk::<4>() {
        Some((head, body)) => {
            let mark = [head[0], head[1]];
            let bodies = shorter(body).map(move |body| framed(&mark, &body));
            Box::new(fewer.chain(bodies).chain(shorter(bytes)))
        }
        None => Box::new(fewer.chain(shorter(bytes))),
    }
}

/// The lengths, and a line for each record.
impl fmt::Debug for Stream {
    fn fmt(&self, out: &mut fmt::Formatter) -> fmt::Result {
        writeln!(
            out,
            "{:?}, {} bytes behind the scopes, full of {}",
            self.lengths, self.tail, self.fill
        )?;
        for (place, record) in (1..).zip(&self.records) {
            writeln!(out, "{place:>4} {}", line(record))?;
        }
        Ok(())
    }
}

/// A record by its parts or, where it does not read, by its bytes.
pub fn line(record: &[u8]) -> String {
    let text = |text: &[u8]| format!("'{}'", text.escape_ascii());
    match parse(record) {
        Ok(Record::Id(id)) => {
            let fields: Vec<String> = id.fields.iter().map(|field| text(field)).collect();
            let refer = id.refer.as_deref().map_or("none".into(), text);
            format!(
                "ID kind {}, name {}, refer {refer}, selector {}, fields {}",
                id.kind,
                text(&id.name),
                text(&id.selector),
                fields.join(" ")
            )
        }
        Ok(Record::Ns(ns)) => {
            format!("NS {} {} {}", ns.target, text(&ns.prefix), text(&ns.uri))
        }
        Ok(Record::Es(es)) => {
            let pair = |name: &[u8], key: &[u8]| format!(" {}={}", text(name), text(key));
            let attributes = es.attributes.iter().map(|it| pair(&it.name, &it.key));
            format!(
                "ES {} {} {:?}{}",
                text(&es.space),
                text(&es.name),
                es.numbers,
                attributes.collect::<String>()
            )
        }
        Ok(Record::Ee(ee)) => format!("EE {} {}", ee.simple, text(&ee.key)),
        Ok(Record::Fi) => "FI".into(),
        Err(refusal) => format!("{} {}", refusal.number(), shown(record)),
    }
}
