//! Records that a session turns back, put among those that it takes.

use crate::model::records::{Ee, Es, Id, Ns, Record};
use crate::random::Random;
use crate::store_cases::{cut_or_grown, damaged, record, record_off};

/// Some records more, at any place: out of order, damaged, past a limit, or none at all.
pub fn insert(random: &mut Random, template: &[Record], records: &mut Vec<Vec<u8>>) {
    for _ in 0..random.pick(&[1, 2, 6]) {
        // Often right behind the template, or at the very end.
        let at = match random.below(6) {
            0 => template.len().min(records.len()),
            1 => records.len(),
            _ => random.below(records.len() + 1),
        };
        let bytes = match random.below(8) {
            0 | 1 => changed(random, records),
            2 => record_off(random).bytes(),
            3 => record(random).bytes(),
            _ => out_of_order(random).bytes(),
        };
        records.insert(at, bytes);
    }
}

/// One of the records with some of its bytes changed.
fn changed(random: &mut Random, records: &[Vec<u8>]) -> Vec<u8> {
    if records.is_empty() || random.once_in(6) {
        return random
            .pick(&[
                &b""[..],
                b"E",
                b"ES",
                b"FI\0",
                b"TU\0\0",
                b"XX\0\0",
                b"EE\x01\x40",
            ])
            .into();
    }
    let at = random.below(records.len());
    match random.once_in(3) {
        true => cut_or_grown(random, &records[at]),
        false => damaged(random, &records[at]),
    }
}

/// A record that is whole, at a place where it may not stand: an end too many, an early finish, a
/// definition in the document, a number or a target that nothing has.
fn out_of_order(random: &mut Random) -> Record {
    let es = |numbers: &[u8]| {
        Record::Es(Es {
            space: Vec::new(),
            name: b"r".into(),
            numbers: numbers.into(),
            attributes: Vec::new(),
        })
    };
    match random.below(7) {
        0 => Record::Fi,
        1 | 2 => Record::Ee(Ee {
            simple: 1,
            key: b"1".into(),
        }),
        3 => Record::Id(Id {
            kind: 1,
            name: b"k".into(),
            flag: 0,
            refer: None,
            selector: b".".into(),
            fields: vec![b"@id".into()],
        }),
        4 => es(&[0, random.pick(&[31, 32, 255])]),
        5 => es(&[]),
        _ => Record::Ns(Ns {
            target: random.below(6) as u8,
            prefix: random.pick(&["p", "q"]).into(),
            uri: b"u".into(),
        }),
    }
}
