//! The record walk: listed records against document 01's numbers, and random and damaged ones against a
//! plain reading of it.

use std::ops::Range;

use host::model::bytes::{Text, take_texts};
use host::model::records::{
    Attribute, BODY_MAX, Ee, Es, Id, Ns, Record, Refusal, framed, parse, take_attribute,
};
use host::random::Random;
use host::shrink::{shorter, shown, shrunk};
use host::store_cases::{cut_or_grown, damaged, record, record_off};
use host::store_doors::{Walked, refusal_number, walk_record};
use host::tally::Seen;

type Said = Result<Record, Refusal>;

/// What the door says of a record: the texts at the places that it gives.
fn given(bytes: &[u8]) -> Said {
    let text = |place: Range<usize>| bytes[place].to_vec();
    let record = match walk_record(bytes) {
        Walked::Refused(place) => return Err(Refusal::INPUT[usize::from(place)]),
        Walked::Id {
            kind,
            name,
            flag,
            refer,
            selector,
            first,
            count,
        } => Record::Id(Id {
            kind,
            name: text(name),
            flag,
            refer: (flag == 1).then(|| text(refer)),
            selector: text(selector),
            fields: to_the_end(bytes, first, count, take_texts),
        }),
        Walked::Ns {
            target,
            prefix,
            uri,
        } => Record::Ns(Ns {
            target,
            prefix: text(prefix),
            uri: text(uri),
        }),
        Walked::Es {
            space,
            name,
            numbers,
            first,
            count,
        } => Record::Es(Es {
            space: text(space),
            name: text(name),
            numbers: text(numbers),
            attributes: to_the_end(bytes, first, count, |rest, count| {
                (0..count).map(|_| take_attribute(rest)).collect()
            }),
        }),
        Walked::Ee { simple, key } => Record::Ee(Ee {
            simple,
            key: text(key),
        }),
        Walked::Fi => Record::Fi,
    };
    Ok(record)
}

/// A list of so many members from a place up to the end of the record.
fn to_the_end<T>(
    bytes: &[u8],
    first: usize,
    count: usize,
    take: impl Fn(&mut &[u8], u8) -> Option<Vec<T>>,
) -> Vec<T> {
    let mut rest = &bytes[first..];
    let count = count.try_into().expect("a count of one byte");
    let list = take(&mut rest, count).expect("a list that is whole");
    assert!(rest.is_empty(), "{} bytes behind the list", rest.len());
    list
}

/// What is said of a record, by the door and by a plain reading alike.
#[track_caller]
fn compared(bytes: &[u8]) -> Said {
    let due = parse(bytes);
    if given(bytes) != due {
        let small = shrunk(bytes.to_vec(), smaller, |bytes| {
            given(bytes) != parse(bytes)
        });
        panic!(
            "{}\ngiven {:?}\ndue {:?}\nfound by {}",
            shown(&small),
            given(&small),
            parse(&small),
            shown(bytes)
        );
    }
    due
}

/// Bytes taken out of the record, or out of its body with the length stated anew.
fn smaller(bytes: &Vec<u8>) -> Box<dyn Iterator<Item = Vec<u8>> + '_> {
    let Some((head, body)) = bytes.split_first_chunk::<4>() else {
        return Box::new(shorter(bytes));
    };
    let mark = [head[0], head[1]];
    Box::new(
        shorter(body)
            .map(move |body| framed(&mark, &body))
            .chain(shorter(bytes)),
    )
}

/// What was said, in a word.
fn sort_of(said: &Said) -> &'static str {
    match said {
        Ok(Record::Id(_)) => "ID",
        Ok(Record::Ns(_)) => "NS",
        Ok(Record::Es(_)) => "ES",
        Ok(Record::Ee(_)) => "EE",
        Ok(Record::Fi) => "FI",
        Err(Refusal::UnknownMark) => "unknown mark",
        Err(Refusal::TooLong) => "too long",
        Err(Refusal::Misframed) => "misframed",
        Err(Refusal::NotUtf8) => "not UTF-8",
        Err(Refusal::BadByte) => "bad byte",
        Err(Refusal::OverLimit) => "over a limit",
        Err(other) => panic!("{other:?} is no refusal because of the input"),
    }
}

const RECORDS: [&str; 5] = ["ID", "NS", "ES", "EE", "FI"];
const REFUSALS: [&str; 6] = [
    "unknown mark",
    "too long",
    "misframed",
    "not UTF-8",
    "bad byte",
    "over a limit",
];

// ---- listed

/// The number that bytes are answered by; 0 where they are a record.
#[track_caller]
fn number(bytes: &[u8]) -> u8 {
    compared(bytes).map_or_else(Refusal::number, |_| 0)
}

fn id(name: &[u8], selector: &[u8], fields: &[&[u8]]) -> Record {
    Record::Id(Id {
        kind: 0,
        name: name.into(),
        flag: 0,
        refer: None,
        selector: selector.into(),
        fields: fields.iter().map(|&field| field.into()).collect(),
    })
}

fn ns(target: u8, prefix: Text) -> Record {
    Record::Ns(Ns {
        target,
        prefix,
        uri: b"u".into(),
    })
}

fn es(numbers: usize, attributes: usize) -> Record {
    Record::Es(Es {
        space: b"".into(),
        name: b"a".into(),
        numbers: vec![0; numbers],
        attributes: vec![attribute(1, 1); attributes],
    })
}

fn attribute(name: usize, key: usize) -> Attribute {
    Attribute {
        name: vec![b'n'; name],
        key: vec![b'k'; key],
    }
}

fn es_with(attribute: Attribute) -> Record {
    Record::Es(Es {
        space: b"".into(),
        name: b"a".into(),
        numbers: vec![],
        attributes: vec![attribute],
    })
}

fn ee(simple: u8, key: Text) -> Record {
    Record::Ee(Ee { simple, key })
}

/// 1, 2 and the first look at 5: what is asked before a body is read.
#[test]
fn the_front_of_a_record_is_answered_by_the_numbers_of_document_01() {
    let rows: [(&[u8], u8); 18] = [
        (b"", 1),
        (b"I", 1),
        (b"ID", 2),
        (b"ID\x00", 2),
        (b"NS", 2),
        (b"ES\x01", 2),
        (b"EE\xFF", 2),
        (b"FI", 2),
        (b"TU\x00\x00", 1),
        (b"RP", 1),
        (b"id\x00\x00", 1),
        (b"DI\xFF\xFF", 1),
        (b"FI\x00\x00", 0),
        (b"FI\x01\x00", 2),
        (b"FI\x00\x00\x00", 2),
        (b"FI\x01\x00\x00", 2),
        (b"FI\x00\x40", 2),
        (b"FI\x01\x40", 5),
    ];
    for (bytes, due) in rows {
        assert_eq!(number(bytes), due, "{}", shown(bytes));
    }
    for mark in [b"ID", b"NS", b"ES", b"EE", b"FI"] {
        let long = framed(mark, &vec![0; BODY_MAX + 1]);
        assert_eq!(number(&long), 5);
        assert_eq!(number(&long[..long.len() - 9]), 5);
        assert_eq!(number(&framed(mark, &vec![0; BODY_MAX])), 2);
    }
}

/// Both sides of each limit, and which refusal comes first where two meet a record.
#[test]
fn the_limits_and_their_order_are_those_of_document_01() {
    let long = |size: usize| vec![b'x'; size];
    let wrong = b"\xC0\x80".to_vec();
    let dot: &[u8] = b".";
    let rows = [
        (id(&long(255), b".", &[b"."]), 0),
        (id(&long(256), b".", &[b"."]), 5),
        (id(b"n", &long(256), &[b"."]), 5),
        (id(b"n", b".", &[&long(256)]), 5),
        (id(b"n", &[b'|'; 7], &[&[b'/'; 16]]), 0),
        (id(b"n", &[b'|'; 8], &[b"."]), 5),
        (id(b"n", b".", &[b".", &[b'/'; 17]]), 5),
        (id(b"n", b".", &[]), 5),
        (id(b"n", b".", &[dot; 4]), 0),
        (id(b"n", b".", &[dot; 5]), 5),
        (id(&wrong, b".", &[dot; 5]), 3),
        (ns(5, long(255)), 0),
        (ns(5, long(256)), 5),
        (ns(6, long(255)), 4),
        (ns(9, long(300)), 4),
        (ns(9, wrong.clone()), 3),
        (es(8, 32), 0),
        (es(9, 32), 5),
        (es(8, 33), 5),
        (es(255, 255), 5),
        (es_with(attribute(255, 126)), 0),
        (es_with(attribute(256, 126)), 5),
        (es_with(attribute(255, 127)), 5),
        (ee(1, long(126)), 0),
        (ee(0, long(127)), 5),
        (ee(2, long(126)), 0),
        (ee(2, long(127)), 5),
        (ee(3, long(126)), 4),
        (ee(3, long(127)), 4),
        (ee(3, wrong), 3),
        (Record::Fi, 0),
    ];
    for (record, due) in rows {
        assert_eq!(number(&record.bytes()), due, "{record:?}");
    }
}

/// A refer byte other than 1 is walked as 0: 4 where the rest of the record is whole then, else 2.
#[test]
fn only_behind_a_refer_byte_of_1_a_text_follows() {
    let body = |flag: u8, refer: &[u8]| {
        let head: &[u8] = b"\x02\x01\x00n";
        let paths: &[u8] = b"\x01\x00.\x01\x01\x00.";
        framed(b"ID", &[head, &[flag], refer, paths].concat())
    };
    let rows: [(u8, &[u8], u8); 6] = [
        (0, b"", 0),
        (1, b"\x01\x00k", 0),
        (2, b"", 4),
        (255, b"", 4),
        (0, b"\x01\x00k", 2),
        (2, b"\x01\x00k", 2),
    ];
    for (flag, refer, due) in rows {
        assert_eq!(number(&body(flag, refer)), due, "{flag} {}", shown(refer));
    }
}

/// What `crates/records/specs/Examples.antt` and `crates/session_spec/specs/Examples.antt` compute.
#[test]
fn the_bytes_of_the_records_are_those_of_their_definition() {
    let mut start = es(0, 0);
    if let Record::Es(es) = &mut start {
        es.name = b"r".into();
        es.attributes = vec![Attribute {
            name: b"id".into(),
            key: b"a".into(),
        }];
    }
    let key = Record::Id(Id {
        kind: 1,
        name: b"".into(),
        flag: 0,
        refer: None,
        selector: b"r".into(),
        fields: vec![b"@id".into()],
    });
    let rows: [(Record, &[u8]); 4] = [
        (
            key,
            &[73, 68, 13, 0, 1, 0, 0, 0, 1, 0, 114, 1, 3, 0, 64, 105, 100],
        ),
        (
            start,
            &[
                69, 83, 14, 0, 0, 0, 1, 0, 114, 0, 1, 2, 0, 105, 100, 1, 0, 97,
            ],
        ),
        (ee(0, vec![]), &[69, 69, 3, 0, 0, 0, 0]),
        (Record::Fi, &[70, 73, 0, 0]),
    ];
    for (record, bytes) in rows {
        assert_eq!(record.bytes(), bytes);
        assert_eq!(compared(bytes), Ok(record));
    }
}

#[test]
fn refusals_have_the_numbers_of_document_01() {
    let numbers: Vec<u8> = (0..6).map(refusal_number).collect();
    assert_eq!(numbers, [1, 5, 2, 3, 4, 5]);
    assert_eq!(numbers, Refusal::INPUT.map(Refusal::number));
}

// ---- random and damaged

#[test]
fn random_records_are_read_as_they_were_written() {
    let mut random = Random::new(0x4EC0);
    let mut seen = Seen::default();
    for _ in 0..20_000 {
        let record = record(&mut random);
        let said = compared(&record.bytes());
        assert_eq!(said.as_ref(), Ok(&record));
        seen.take(sort_of(&said));
    }
    seen.assert_each_at_least(RECORDS, 1_000);
}

#[test]
fn records_with_something_off_are_refused_as_by_a_plain_reading() {
    let mut random = Random::new(0x0FF0);
    let mut seen = Seen::default();
    for _ in 0..30_000 {
        let bytes = record_off(&mut random).bytes();
        seen.take(sort_of(&compared(&bytes)));
    }
    seen.assert_each_at_least(RECORDS, 500);
    seen.assert_each_at_least(["not UTF-8", "bad byte", "over a limit"], 1_000);
}

/// Damage to the whole record; or to its body with the length stated anew, so that the parts are read.
fn damaged_record(random: &mut Random) -> Vec<u8> {
    let bytes = match random.below(3) {
        0 => record_off(random).bytes(),
        _ => record(random).bytes(),
    };
    let (head, body) = bytes.split_first_chunk::<4>().expect("a record has a head");
    let mark = match random.once_in(8) {
        true => random.pick(&[b"ID", b"NS", b"ES", b"EE", b"FI", b"TU"]),
        false => &[head[0], head[1]],
    };
    match random.below(6) {
        0 => cut_or_grown(random, &bytes),
        1 => damaged(random, &bytes),
        2 => framed(mark, &cut_or_grown(random, body)),
        _ => framed(mark, &damaged(random, body)),
    }
}

#[test]
fn damaged_records_are_refused_as_by_a_plain_reading() {
    let mut random = Random::new(0xDA4A);
    let mut seen = Seen::default();
    for _ in 0..120_000 {
        let bytes = damaged_record(&mut random);
        seen.take(sort_of(&compared(&bytes)));
    }
    seen.assert_each_at_least(RECORDS, 300);
    seen.assert_each_at_least(REFUSALS, 300);
}

/// The bodies of exactly `length` of these bytes.
fn bodies(letters: &[u8], length: u32) -> impl Iterator<Item = Vec<u8>> {
    let count = letters.len();
    (0..count.pow(length)).map(move |number| {
        let digit = |place| number / count.pow(place) % count;
        (0..length).map(|place| letters[digit(place)]).collect()
    })
}

/// Small numbers are lengths and counts that often end inside; the others are no UTF-8.
#[test]
fn all_short_bodies_are_refused_as_by_a_plain_reading() {
    let mut seen = Seen::default();
    let short = (0..=6).flat_map(|length| bodies(&[0, 1, 2, 3, 6, 0xC3], length));
    let longer = (7..=10).flat_map(|length| bodies(&[0, 1, 2], length));
    for body in short.chain(longer) {
        for mark in [b"ID", b"NS", b"ES", b"EE", b"FI"] {
            seen.take(sort_of(&compared(&framed(mark, &body))));
        }
    }
    seen.assert_each_at_least(["ID", "NS", "ES", "EE"], 30);
    seen.assert_each_at_least(["misframed", "not UTF-8", "bad byte", "over a limit"], 30);
}
