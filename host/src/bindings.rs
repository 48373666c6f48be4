//! What the look-up of prefixes is held against: the bindings themselves, the original where a path
//! can ask for the prefix, and on any bytes a plain reading of the definitions. A difference is made
//! small before it is shown.

use std::ops::Range;

use crate::definitions::{
    Binding, Record, kind_of, own_part, own_records, store, with_path, without,
};
use crate::doors::{self, Found};
use crate::entries::Test;
use crate::model::matching::XML_NAMESPACE;
use crate::oracle::reader::{Path, read};
use crate::shrink::{shown, shrunk};

/// A prefix in a path of a constraint: the constraint's number among the records, from 0, and which
/// path it is, 1 the selector and 2 + i field i.
#[derive(Debug, Clone)]
pub struct LookUp {
    pub records: Vec<Record>,
    pub number: usize,
    pub target: u8,
    pub prefix: String,
}

/// What a prefix is bound to: `xml` before all, then by the bindings of the path, the first of them,
/// then schema-wide.
pub fn bound(look_up: &LookUp) -> Option<&str> {
    let LookUp {
        records, prefix, ..
    } = look_up;
    if prefix == "xml" {
        return Some(XML_NAMESPACE);
    }
    let own = &records[own_records(records, look_up.number)];
    first(own, look_up.target, prefix).or_else(|| first(records, 0, prefix))
}

fn first<'a>(records: &'a [Record], target: u8, prefix: &str) -> Option<&'a str> {
    let mut bindings = records.iter().filter_map(|record| match record {
        Record::Ns(binding) => Some(binding),
        Record::Id(_) => None,
    });
    let binds = |binding: &&Binding| binding.target == target && binding.prefix == prefix;
    bindings.find(binds).map(|binding| binding.uri.as_str())
}

/// What the original looks a prefix up as, by a path that has it; no answer where there is no such
/// path.
pub fn bound_by_original(look_up: &LookUp) -> Option<Option<String>> {
    let LookUp {
        records,
        number,
        target,
        prefix,
    } = look_up;
    let path = format!("{prefix}:*");
    let written = read(kind_of(*target), &path)?.remove(0);
    let [
        Test {
            prefix: Some(p), ..
        },
    ] = &written.steps[..]
    else {
        return None;
    };
    if p != prefix.as_bytes() {
        return None;
    }
    let records = with_path(records, *number, *target, path);
    let path = Path::of(&records, *number, *target).expect("each path is read");
    Some(path.spaces()[0].map(Into::into))
}

/// Where a prefix is found, which must be where its binding stands.
#[track_caller]
pub fn compared(look_up: &LookUp) -> Found {
    if fault(look_up).is_some() {
        let small = shrunk(look_up.clone(), smaller, |small| fault(small).is_some());
        let fault = fault(&small).expect("it still differs");
        panic!("{fault}\n{small:#?}\nfound by {look_up:?}");
    }
    let store = store(&look_up.records);
    let own = &store[own_part(&look_up.records, look_up.number)];
    find(own, &store, look_up.target, look_up.prefix.as_bytes())
}

/// What is wrong with a look-up, if anything is.
fn fault(look_up: &LookUp) -> Option<String> {
    let schema = store(&look_up.records);
    let own = &schema[own_part(&look_up.records, look_up.number)];
    let prefix = look_up.prefix.as_bytes();
    let plain = find(own, &schema, look_up.target, prefix);
    let (uri, due) = (uri_of(&plain, own, &schema), bound(look_up));
    if uri != due.map(str::as_bytes) {
        return Some(format!("by a plain reading {plain:?}, and {due:?} is due"));
    }
    fault_in(own, &schema, look_up.target, prefix)
}

fn smaller(look_up: &LookUp) -> Box<dyn Iterator<Item = LookUp> + '_> {
    let records = 0..look_up.records.len();
    let fewer = move |at| without(&look_up.records, look_up.number, at);
    Box::new(records.filter_map(fewer).map(|(records, number)| LookUp {
        records,
        number,
        ..look_up.clone()
    }))
}

// ---- a plain reading of the definitions, on any bytes

/// A binding that bytes hold; `uri` is where its URI stands in them.
struct Held<'a> {
    target: u8,
    prefix: &'a [u8],
    uri: Range<usize>,
}

/// The bindings of the NS records that stand one behind the other, as far as records are whole.
/// Another record, or one whose parts are not in it, is passed over.
fn held(bytes: &[u8]) -> Vec<Held<'_>> {
    let mut held = Vec::new();
    let mut at = 0;
    while let Some(head) = bytes.get(at..at + 4) {
        let end = at + 4 + length_at(head, 2);
        let Some(record) = bytes.get(..end) else {
            break;
        };
        if head.starts_with(b"NS") {
            held.extend(held_at(record, at + 4));
        }
        at = end;
    }
    held
}

/// The binding whose body begins at a place, in bytes that end where the record does.
fn held_at(record: &[u8], at: usize) -> Option<Held<'_>> {
    let target = *record.get(at)?;
    let prefix = text_at(record, at + 1)?;
    let uri = text_at(record, prefix.end)?;
    Some(Held {
        target,
        prefix: &record[prefix],
        uri,
    })
}

/// Where the text stands whose length is at a place.
fn text_at(bytes: &[u8], at: usize) -> Option<Range<usize>> {
    let start = at + 2;
    let end = start + length_at(bytes.get(..start)?, at);
    (end <= bytes.len()).then_some(start..end)
}

fn length_at(bytes: &[u8], at: usize) -> usize {
    u16::from_le_bytes([bytes[at], bytes[at + 1]]).into()
}

/// Where the URI of a prefix stands.
pub fn find(own: &[u8], schema: &[u8], target: u8, prefix: &[u8]) -> Found {
    let bound = |bytes, target| {
        let binds = |held: &Held| held.target == target && held.prefix == prefix;
        held(bytes).into_iter().find(binds).map(|held| held.uri)
    };
    if prefix == b"xml" {
        return Found::Xml;
    }
    if let Some(uri) = bound(own, target) {
        return Found::Own(uri);
    }
    match bound(schema, 0) {
        Some(uri) => Found::Schema(uri),
        None => Found::Nowhere,
    }
}

/// The URI that was found, if any.
pub fn uri_of<'a>(found: &Found, own: &'a [u8], schema: &'a [u8]) -> Option<&'a [u8]> {
    match found {
        Found::Nowhere => None,
        Found::Xml => Some(XML_NAMESPACE.as_bytes()),
        Found::Own(uri) => Some(&own[uri.clone()]),
        Found::Schema(uri) => Some(&schema[uri.clone()]),
    }
}

/// Where a prefix is found in any bytes, which must be where it is by a plain reading.
#[track_caller]
pub fn compared_in(own: &[u8], schema: &[u8], target: u8, prefix: &[u8]) -> Found {
    if let Some(fault) = fault_in(own, schema, target, prefix) {
        panic!(
            "{fault}\nprefix {}, target {target}\nown {}\nschema-wide {}",
            shown(prefix),
            shown(own),
            shown(schema)
        );
    }
    find(own, schema, target, prefix)
}

/// An empty URI is the same at any place that is inside.
fn fault_in(own: &[u8], schema: &[u8], target: u8, prefix: &[u8]) -> Option<String> {
    let given = doors::find(own, schema, target, prefix);
    let due = find(own, schema, target, prefix);
    let same = match (&given, &due) {
        (Found::Own(uri), Found::Own(due)) if due.is_empty() => {
            uri.is_empty() && uri.end <= own.len()
        }
        (Found::Schema(uri), Found::Schema(due)) if due.is_empty() => {
            uri.is_empty() && uri.end <= schema.len()
        }
        _ => given == due,
    };
    (!same).then(|| format!("found {given:?}, and {due:?} is due"))
}
