//! Inputs for the program `icheck`: document 01's run whole, cut off and with a wrong record at each place; a
//! refusal of each number; inputs longer than the pieces that are read, with a report at the edge of a piece;
//! and random streams.

use crate::made::{ee, es, id, leaf, ns, one_run};
use crate::model::records::Record;
use crate::random::Random;
use crate::streams;

/// An input by its name.
pub struct Input {
    pub name: String,
    pub bytes: Vec<u8>,
}

/// How many bytes `icheck` holds at once.
const PIECE: usize = 131_072;

pub fn all() -> Vec<Input> {
    let mut inputs = listed();
    inputs.extend(cut_off());
    inputs.extend(refused());
    inputs.extend(at_an_edge());
    inputs.extend(random());
    inputs
}

fn input(name: impl Into<String>, bytes: Vec<u8>) -> Input {
    Input {
        name: name.into(),
        bytes,
    }
}

fn bytes_of<'a>(records: impl IntoIterator<Item = &'a Record>) -> Vec<u8> {
    records.into_iter().flat_map(Record::bytes).collect()
}

fn listed() -> Vec<Input> {
    let run = one_run();
    let without_end = &run[..run.len() - 1];
    let twice = [bytes_of(&run), bytes_of(&run)].concat();
    vec![
        input("one-run", bytes_of(&run)),
        input("empty", Vec::new()),
        input("finish-alone", bytes_of(&[Record::Fi])),
        input("without-finish", bytes_of(without_end)),
        input("one-run-twice", twice),
        input("many-reports", bytes_of(&many(5_000, 3))),
        input("report-store-full", bytes_of(&many(3_641, 1))),
        input("report-store-just-full", bytes_of(&many(3_640, 1))),
        input("tuple-store-full", bytes_of(&tuples(5_000))),
        input("depth-64", bytes_of(&nested("x", &[0; 64]))),
        input("depth-65", bytes_of(&nested("x", &[0; 65]))),
        input("sixteen-scopes", bytes_of(&nested("x", &[8, 8]))),
        input("seventeen-scopes", bytes_of(&nested("x", &[8, 8, 1]))),
        input("32-selections", bytes_of(&nested(".//.", &[8, 0, 0, 0]))),
        input(
            "33-selections",
            bytes_of(&nested(".//.", &[4, 0, 0, 0, 0, 0, 0, 1])),
        ),
        input("two-routes", bytes_of(&two_routes())),
        input("nillable", bytes_of(&nillable())),
    ]
}

/// Vouchers whose number is found by two routes, then by one, and one with two numbers.
fn two_routes() -> Vec<Record> {
    let number = |key: &str| [es("number", &[], &[]), ee(1, key)];
    let voucher = |inside: &[Record]| [&[es("v", &[], &[])], inside, &[ee(0, "")]].concat();
    let below = [&[es("h", &[], &[])][..], &number("8"), &[ee(0, "")]].concat();
    let mut records = vec![
        id(1, "k", None, "v", &["number|.//number"]),
        es("t", &[0], &[]),
    ];
    records.extend(voucher(&number("7")));
    records.extend(voucher(&number("7")));
    records.extend(voucher(&below));
    records.extend(voucher(&[number("9"), number("9")].concat()));
    records.extend([ee(0, ""), Record::Fi]);
    records
}

/// Vouchers of a key and of a unique: one whose number is nillable, the same that is not, and a nillable one
/// without an id.
fn nillable() -> Vec<Record> {
    let number = |simple: u8| [es("n", &[], &[]), ee(simple, "7"), ee(0, "")];
    let mut records = vec![
        id(1, "k", None, "v", &["@id", "n"]),
        id(0, "u", None, "v", &["@id", "n"]),
        es("t", &[0, 1], &[]),
    ];
    for (attributes, simple) in [(&[("id", "1")][..], 2), (&[("id", "1")], 1), (&[], 2)] {
        records.push(es("v", &[], attributes));
        records.extend(number(simple));
    }
    records.extend([ee(0, ""), Record::Fi]);
    records
}

/// A key whose scope has so many elements, each so-manieth without its field.
fn many(elements: usize, each: usize) -> Vec<Record> {
    let mut records = vec![id(1, "k", None, "r", &["@id"]), es("t", &[0], &[])];
    for number in 0..elements {
        let name = match number % each {
            0 => "r",
            _ => "s",
        };
        records.extend(leaf(name, &[]));
    }
    records.extend([ee(0, ""), Record::Fi]);
    records
}

/// A unique constraint with this selector, and elements one inside the other, each of which opens so many scopes of it.
fn nested(selector: &str, scopes: &[usize]) -> Vec<Record> {
    let element = |count: &usize| es("e", &vec![0; *count], &[]);
    let mut records = vec![id(0, "u", None, selector, &["@id"])];
    records.extend(scopes.iter().map(element));
    records
}

/// A unique constraint with so many tuples.
fn tuples(count: usize) -> Vec<Record> {
    let mut records = vec![id(0, "u", None, "r", &["@id"]), es("t", &[0], &[])];
    for number in 0..count {
        records.extend(leaf("r", &[("id", &number.to_string())]));
    }
    records
}

/// The run's first bytes, of each number.
fn cut_off() -> Vec<Input> {
    let run = bytes_of(&one_run());
    let cut = |size: usize| input(format!("cut-off-{size}"), run[..size].into());
    (1..run.len()).map(cut).collect()
}

/// A wrong record at each place of the run, and a run for each number.
fn refused() -> Vec<Input> {
    let run = one_run();
    let wrong: [(&str, &[u8]); 5] = [
        ("no-mark", b"XX\0\0"),
        ("too-long", b"ES\x01\x40"),
        ("too-long-and-more", b"EE\xFF\xFFabc"),
        ("body-too-long", b"FI\x01\0a"),
        ("finish", b"FI\0\0"),
    ];
    let mut inputs = Vec::new();
    for place in 0..=run.len() {
        for (name, bytes) in wrong {
            let (before, behind) = run.split_at(place);
            let bytes = [&bytes_of(before), bytes, &bytes_of(behind)].concat();
            inputs.push(input(format!("{name}-{}", place + 1), bytes));
        }
    }
    inputs.extend(each_number());
    inputs
}

fn each_number() -> Vec<Input> {
    let unique = || id(0, "u", None, "r", &["@id"]);
    let deep = |depth: usize| vec![es("a", &[], &[]); depth];
    let with = |head: &[Record], more: Vec<Record>| bytes_of(head.iter().chain(&more));
    let long = "a".repeat(256);
    vec![
        input("two-of-a-mark", b"ES".to_vec()),
        input("no-text", b"EE\x04\0\0\x01\0\xFF".to_vec()),
        input("no-kind", with(&[id(3, "u", None, "r", &["@id"])], vec![])),
        input(
            "long-text",
            with(&[id(0, &long, None, "r", &["@id"])], vec![]),
        ),
        input(
            "definition-late",
            with(&[es("a", &[], &[])], vec![unique()]),
        ),
        input("not-defined", with(&[unique()], vec![es("a", &[1], &[])])),
        input("binding-first", with(&[ns(1, "p", "u")], vec![])),
        input("end-too-many", with(&[ee(0, "")], vec![])),
        input("finish-early", with(&[es("a", &[], &[])], vec![Record::Fi])),
        input("deep", with(&[], deep(64))),
        input("too-deep", with(&[], deep(65))),
        input("scopes", with(&[unique()], vec![es("a", &[0; 8], &[]); 3])),
        input("bound-twice", with(&[], vec![ns(0, "p", "u"); 2])),
        input("constraints", with(&[], vec![unique(); 33])),
    ]
}

/// A report whose record lies across the end of the first piece, at each place; and one behind many pieces.
fn at_an_edge() -> Vec<Input> {
    let head = [id(1, "k", None, "r", &["@id"]), es("t", &[0], &[])];
    let tail = [ee(0, ""), Record::Fi];
    let across = |end: usize| {
        let mut bytes = bytes_of(&head);
        bytes.extend(filled(end - bytes.len()));
        bytes.extend(bytes_of(&leaf("r", &[])));
        bytes.extend(filled(4_096));
        bytes.extend(bytes_of(&tail));
        bytes
    };
    let size = bytes_of(&leaf("r", &[])).len();
    let mut inputs: Vec<Input> = (0..=size)
        .map(|ahead| input(format!("edge-{ahead}"), across(PIECE - ahead)))
        .collect();
    inputs.push(input("many-pieces", across(5 * PIECE + 77)));
    inputs
}

/// Elements that no selector takes, of so many bytes in all.
fn filled(size: usize) -> Vec<u8> {
    let sized = |key: usize| bytes_of(&leaf("x", &[("a", &"k".repeat(key))]));
    let (least, most) = (sized(0).len(), sized(126).len());
    let mut bytes = Vec::new();
    while size - bytes.len() >= most + least {
        bytes.extend(sized(126));
    }
    let left = size - bytes.len();
    let first = left.min(most).min(left - least).max(least);
    bytes.extend(sized(first - least));
    if first < left {
        bytes.extend(sized(left - first - least));
    }
    assert_eq!(bytes.len(), size);
    bytes
}

/// Streams with anything in them, and streams that are well formed; two of these one behind the other.
fn random() -> Vec<Input> {
    let mut random = Random::new(0x6963);
    let mut inputs = Vec::new();
    for number in 0..300 {
        let stream = streams::numbered(0x69, number);
        inputs.push(input(format!("stream-{number}"), stream.records.concat()));
    }
    for number in 0..300 {
        let stream = streams::well_formed(&mut random);
        inputs.push(input(
            format!("well-formed-{number}"),
            stream.records.concat(),
        ));
    }
    inputs
}
