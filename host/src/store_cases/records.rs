//! Random records.

use crate::model::bytes::Text;
use crate::model::definitions::Definitions;
use crate::model::records::{
    ATTRIBUTES_MAX, Attribute, BARS_MAX, Ee, Es, FIELDS_MAX, Id, KEY_MAX, NUMBERS_MAX, Ns, Record,
    SLASHES_MAX, TEXT_MAX,
};
use crate::random::Random;
use crate::texts;

/// A UTF-8 text, short or as long as may be.
pub fn text(random: &mut Random, most: usize) -> Text {
    let mut text = texts::valid(random, 4).into_bytes();
    if random.once_in(16) {
        text.resize(most, b'x');
    }
    text
}

/// A path's text, which need not read, with few `|` and `/` or with as many as may be.
fn path(random: &mut Random) -> Text {
    if random.once_in(8) {
        return [vec![b'|'; BARS_MAX], b"a".to_vec(), vec![b'/'; SLASHES_MAX]].concat();
    }
    let pieces = [
        ".", "//", "a", "p:b", "@id", "*", "|", " ", "NS", "ID", "\u{E9}",
    ];
    let count = random.below(6);
    let pieces = (0..count).map(|_| random.pick(&pieces));
    let path = pieces.collect::<String>().into_bytes();
    match random.once_in(16) {
        true => text(random, TEXT_MAX),
        false => path,
    }
}

/// A count that may go up to a limit: low ones, and the limit.
fn count(random: &mut Random, least: usize, most: usize) -> usize {
    match random.once_in(8) {
        true => most,
        false => least + random.below((most - least).min(3) + 1),
    }
}

/// A record that is not refused because of the input.
pub fn record(random: &mut Random) -> Record {
    match random.below(9) {
        0 | 1 => Record::Id(id(random)),
        2 | 3 => Record::Ns(ns(random)),
        4..=6 => Record::Es(es(random)),
        7 => Record::Ee(Ee {
            simple: random.below(3) as u8,
            key: text(random, KEY_MAX),
        }),
        _ => Record::Fi,
    }
}

fn id(random: &mut Random) -> Id {
    let refer = random.once_in(2).then(|| text(random, TEXT_MAX));
    let fields = count(random, 1, FIELDS_MAX);
    Id {
        kind: random.below(3) as u8,
        name: short_name(random),
        flag: refer.is_some().into(),
        refer,
        selector: path(random),
        fields: (0..fields).map(|_| path(random)).collect(),
    }
}

/// A name that other constraints often have too.
fn short_name(random: &mut Random) -> Text {
    match random.once_in(4) {
        true => text(random, TEXT_MAX),
        false => random.pick(&["", "k", "kk", "u"]).into(),
    }
}

fn ns(random: &mut Random) -> Ns {
    let prefix = match random.below(4) {
        0 => random.pick(&["p", "q", "", "xml"]).into(),
        _ => text(random, TEXT_MAX),
    };
    Ns {
        target: random.below(6) as u8,
        prefix,
        uri: text(random, TEXT_MAX),
    }
}

fn es(random: &mut Random) -> Es {
    let numbers = count(random, 0, NUMBERS_MAX);
    let attributes = count(random, 0, ATTRIBUTES_MAX);
    Es {
        space: text(random, TEXT_MAX),
        name: text(random, TEXT_MAX),
        numbers: (0..numbers).map(|_| random.byte()).collect(),
        attributes: (0..attributes)
            .map(|_| Attribute {
                name: text(random, TEXT_MAX),
                key: text(random, KEY_MAX),
            })
            .collect(),
    }
}

/// A record with something in it that may be refused: a text that is no UTF-8 or too long, a byte outside
/// its values, a count past its limit, too many `|` or `/`.
pub fn record_off(random: &mut Random) -> Record {
    let mut record = record(random);
    for _ in 0..1 + random.below(2) {
        match random.below(3) {
            0 => {
                let texts = texts_mut(&mut record);
                if !texts.is_empty() {
                    let at = random.below(texts.len());
                    let text = texts.into_iter().nth(at).expect("a text");
                    *text = text_off(random, text);
                }
            }
            1 => byte_off(random, &mut record),
            _ => count_off(random, &mut record),
        }
    }
    record
}

/// All texts of a record, keys too.
fn texts_mut(record: &mut Record) -> Vec<&mut Text> {
    match record {
        Record::Id(id) => {
            let texts = [&mut id.name, &mut id.selector].into_iter();
            texts.chain(&mut id.refer).chain(&mut id.fields).collect()
        }
        Record::Ns(ns) => vec![&mut ns.prefix, &mut ns.uri],
        Record::Es(es) => {
            let attributes = es.attributes.iter_mut();
            let theirs = attributes.flat_map(|it| [&mut it.name, &mut it.key]);
            [&mut es.space, &mut es.name]
                .into_iter()
                .chain(theirs)
                .collect()
        }
        Record::Ee(ee) => vec![&mut ee.key],
        Record::Fi => vec![],
    }
}

/// Lengths on both sides of the limits, bytes that may be no UTF-8, one `|` or `/` too many.
fn text_off(random: &mut Random, text: &[u8]) -> Text {
    match random.below(4) {
        0 => texts::damaged(random, text),
        1 => vec![b'y'; random.pick(&[KEY_MAX, KEY_MAX + 1, TEXT_MAX, TEXT_MAX + 1, 300, 3000])],
        2 => vec![b'|'; BARS_MAX + random.below(2)],
        _ => vec![b'/'; SLASHES_MAX + random.below(2)],
    }
}

/// Only behind a refer byte of 1 a text follows.
fn byte_off(random: &mut Random, record: &mut Record) {
    let byte = random.pick(&[0, 1, 2, 3, 5, 6, 9, 255]);
    match record {
        Record::Id(id) if random.once_in(2) => id.kind = byte,
        Record::Id(id) => {
            id.flag = byte;
            id.refer = (byte == 1).then(|| id.refer.take().unwrap_or_default());
        }
        Record::Ns(ns) => ns.target = byte,
        Record::Ee(ee) => ee.simple = byte,
        Record::Es(_) | Record::Fi => {}
    }
}

fn count_off(random: &mut Random, record: &mut Record) {
    match record {
        Record::Id(id) => {
            let count = random.pick(&[0, FIELDS_MAX, FIELDS_MAX + 1, 200, 255]);
            id.fields.resize(count, b"f".into());
        }
        Record::Es(es) if random.once_in(2) => {
            let count = random.pick(&[NUMBERS_MAX, NUMBERS_MAX + 1, 200, 255]);
            es.numbers.resize(count, 7);
        }
        Record::Es(es) => {
            let blank = Attribute {
                name: b"n".into(),
                key: b"k".into(),
            };
            let count = random.pick(&[ATTRIBUTES_MAX, ATTRIBUTES_MAX + 1, 200, 255]);
            es.attributes.resize(count, blank);
        }
        Record::Ns(_) | Record::Ee(_) | Record::Fi => {}
    }
}

/// ID and NS records that a session takes one after another: few, or as many as may be.
pub fn definition_records(random: &mut Random) -> Vec<Record> {
    let mut definitions = Definitions::default();
    let mut records = Vec::new();
    for _ in 0..random.pick(&[1, 4, 12, 40, 400]) {
        let record = match random.below(3) {
            0 => Record::Id(id(random)),
            _ => Record::Ns(ns(random)),
        };
        if definitions.fault(&record).is_none() {
            definitions.define(record.clone());
            records.push(record);
        }
    }
    records
}
