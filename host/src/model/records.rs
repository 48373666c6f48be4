//! The five records that are handed in ('The records, who makes them, who reads them'), and the
//! refusals because of the input ('Turned back because of the input').

use std::str::from_utf8;

use super::bytes::{Text, put_text, put_two, take_byte, take_bytes, take_text, take_texts};

/// ID, a constraint. `kind` is 0 unique, 1 key, 2 keyref; `flag` is the refer byte, and a text
/// follows it where it is 1.
#[derive(Debug, Clone, PartialEq, Eq)]
pub struct Id {
    pub kind: u8,
    pub name: Text,
    pub flag: u8,
    pub refer: Option<Text>,
    pub selector: Text,
    pub fields: Vec<Text>,
}

/// NS, a prefix binding. `target` is 0 schema-wide, 1 the selector of the latest ID, 2 + i its
/// field i.
#[derive(Debug, Clone, PartialEq, Eq)]
pub struct Ns {
    pub target: u8,
    pub prefix: Text,
    pub uri: Text,
}

/// ES, element start. An empty namespace is none.
#[derive(Debug, Clone, PartialEq, Eq)]
pub struct Es {
    pub space: Text,
    pub name: Text,
    pub numbers: Vec<u8>,
    pub attributes: Vec<Attribute>,
}

/// An attribute of an ES: its qualified name and its key text.
#[derive(Debug, Clone, PartialEq, Eq)]
pub struct Attribute {
    pub name: Text,
    pub key: Text,
}

/// EE, element end. `simple` is 0 without a simple value, 1 with one, and 2 with one of an element that
/// is declared nillable.
#[derive(Debug, Clone, PartialEq, Eq)]
pub struct Ee {
    pub simple: u8,
    pub key: Text,
}

/// The records; FI, finish, has an empty body.
#[derive(Debug, Clone, PartialEq, Eq)]
pub enum Record {
    Id(Id),
    Ns(Ns),
    Es(Es),
    Ee(Ee),
    Fi,
}

/// The refusals, those because of the session too, in the order of document 01's two lists.
#[derive(Debug, Clone, Copy, PartialEq, Eq, PartialOrd, Ord)]
pub enum Refusal {
    /// 10: an area is too short, or the session is not well formed.
    Unfit,
    /// 1: fewer than two bytes, or no mark of a record that is handed in.
    UnknownMark,
    /// 5, first look: a body of over 16,384 bytes is stated.
    TooLong,
    /// 2: more or fewer bytes than are stated, or than the body's parts take.
    Misframed,
    /// 3: a text is not UTF-8.
    NotUtf8,
    /// 4: a kind, refer, simple or NS byte outside its values.
    BadByte,
    /// 5: a limit.
    OverLimit,
    /// 11: ID or NS after the first ES; any record after FI.
    OutOfPlace,
    /// 19: a million events were taken.
    TooManyEvents,
    /// 12: an NS without its path; an ES number never defined.
    Undefined,
    /// 13: EE with no element open; FI with one open.
    Unbalanced,
    /// 17: a schema-wide prefix is bound already.
    BoundTwice,
    /// 18: a 33rd constraint, a 65th binding, or no room for the record.
    DefinitionsFull,
    /// 14: depth over 64.
    TooDeep,
    /// 20: open scopes over 16.
    TooManyScopes,
    /// 21: open selections over 32.
    TooManySelections,
    /// 15: no room for the event's tuples.
    TuplesFull,
    /// 16: no room for its reports.
    ReportsFull,
}

impl Refusal {
    /// The refusals because of the input, in the order of the tests.
    pub const INPUT: [Self; 6] = [
        Self::UnknownMark,
        Self::TooLong,
        Self::Misframed,
        Self::NotUtf8,
        Self::BadByte,
        Self::OverLimit,
    ];

    /// Document 01's number, or request U1's.
    pub fn number(self) -> u8 {
        match self {
            Self::Unfit => 10,
            Self::UnknownMark => 1,
            Self::Misframed => 2,
            Self::NotUtf8 => 3,
            Self::BadByte => 4,
            Self::TooLong | Self::OverLimit => 5,
            Self::OutOfPlace => 11,
            Self::TooManyEvents => 19,
            Self::Undefined => 12,
            Self::Unbalanced => 13,
            Self::BoundTwice => 17,
            Self::DefinitionsFull => 18,
            Self::TooDeep => 14,
            Self::TooManyScopes => 20,
            Self::TooManySelections => 21,
            Self::TuplesFull => 15,
            Self::ReportsFull => 16,
        }
    }
}

/// 5, first look: the bytes of a body.
pub const BODY_MAX: usize = 16_384;
/// 5: the bytes of a text that is no key.
pub const TEXT_MAX: usize = 255;
/// 5: the bytes of a key.
pub const KEY_MAX: usize = 126;
/// 5: the fields of a constraint, which has one at least.
pub const FIELDS_MAX: usize = 4;
/// 5: the constraints that an ES lists.
pub const NUMBERS_MAX: usize = 8;
/// 5: the attributes of an ES.
pub const ATTRIBUTES_MAX: usize = 32;
/// 5: the `|` of a path.
pub const BARS_MAX: usize = 7;
/// 5: the `/` of a path.
pub const SLASHES_MAX: usize = 16;

// ---- what bytes say

/// The record that bytes say, or the first refusal: 1, the first look at 5, 2, then 3, 4 and 5.
pub fn parse(bytes: &[u8]) -> Result<Record, Refusal> {
    let (mark, rest) = bytes.split_first_chunk().ok_or(Refusal::UnknownMark)?;
    let take_body = match mark {
        b"ID" => take_id,
        b"NS" => take_ns,
        b"ES" => take_es,
        b"EE" => take_ee,
        b"FI" => take_fi,
        _ => return Err(Refusal::UnknownMark),
    };
    let (stated, mut body) = rest.split_first_chunk().ok_or(Refusal::Misframed)?;
    let stated = usize::from(u16::from_le_bytes(*stated));
    if stated > BODY_MAX {
        return Err(Refusal::TooLong);
    }
    if body.len() != stated {
        return Err(Refusal::Misframed);
    }
    let record = take_body(&mut body).ok_or(Refusal::Misframed)?;
    if !body.is_empty() {
        return Err(Refusal::Misframed);
    }
    match record.fault() {
        Some(refusal) => Err(refusal),
        None => Ok(record),
    }
}

/// A refer byte other than 1 is walked as 0.
fn take_id(rest: &mut &[u8]) -> Option<Record> {
    let kind = take_byte(rest)?;
    let name = take_text(rest)?;
    let flag = take_byte(rest)?;
    let refer = match flag {
        1 => Some(take_text(rest)?),
        _ => None,
    };
    let selector = take_text(rest)?;
    let count = take_byte(rest)?;
    let fields = take_texts(rest, count)?;
    Some(Record::Id(Id {
        kind,
        name,
        flag,
        refer,
        selector,
        fields,
    }))
}

fn take_ns(rest: &mut &[u8]) -> Option<Record> {
    let target = take_byte(rest)?;
    let prefix = take_text(rest)?;
    let uri = take_text(rest)?;
    Some(Record::Ns(Ns {
        target,
        prefix,
        uri,
    }))
}

fn take_es(rest: &mut &[u8]) -> Option<Record> {
    let space = take_text(rest)?;
    let name = take_text(rest)?;
    let count = take_byte(rest)?;
    let numbers = take_bytes(rest, count.into())?.into();
    let count = take_byte(rest)?;
    let attributes: Option<_> = (0..count).map(|_| take_attribute(rest)).collect();
    Some(Record::Es(Es {
        space,
        name,
        numbers,
        attributes: attributes?,
    }))
}

/// The attribute at the front: a name and a key.
pub fn take_attribute(rest: &mut &[u8]) -> Option<Attribute> {
    let name = take_text(rest)?;
    let key = take_text(rest)?;
    Some(Attribute { name, key })
}

fn take_ee(rest: &mut &[u8]) -> Option<Record> {
    let simple = take_byte(rest)?;
    let key = take_text(rest)?;
    Some(Record::Ee(Ee { simple, key }))
}

fn take_fi(_: &mut &[u8]) -> Option<Record> {
    Some(Record::Fi)
}

// ---- 3, 4 and 5 of a record that was walked

impl Record {
    /// The first of 3, 4 and 5 that meets it.
    fn fault(&self) -> Option<Refusal> {
        let is_utf8 = |text: &&[u8]| from_utf8(text).is_ok();
        if !self.texts().iter().chain(&self.keys()).all(is_utf8) {
            return Some(Refusal::NotUtf8);
        }
        if self.has_bad_byte() {
            return Some(Refusal::BadByte);
        }
        self.is_over_limit().then_some(Refusal::OverLimit)
    }

    /// The texts that are no keys.
    fn texts(&self) -> Vec<&[u8]> {
        match self {
            Self::Id(id) => {
                let first = [Some(&id.name), id.refer.as_ref(), Some(&id.selector)];
                let texts = first.into_iter().flatten().chain(&id.fields);
                texts.map(Vec::as_slice).collect()
            }
            Self::Ns(ns) => vec![&ns.prefix, &ns.uri],
            Self::Es(es) => {
                let names = es.attributes.iter().map(|attribute| &attribute.name);
                let texts = [&es.space, &es.name].into_iter().chain(names);
                texts.map(Vec::as_slice).collect()
            }
            Self::Ee(_) | Self::Fi => vec![],
        }
    }

    fn keys(&self) -> Vec<&[u8]> {
        match self {
            Self::Es(es) => es
                .attributes
                .iter()
                .map(|attribute| attribute.key.as_slice())
                .collect(),
            Self::Ee(ee) => vec![&ee.key],
            Self::Id(_) | Self::Ns(_) | Self::Fi => vec![],
        }
    }

    /// 4: kind, refer, simple or NS byte outside its values.
    fn has_bad_byte(&self) -> bool {
        match self {
            Self::Id(id) => id.kind > 2 || id.flag > 1,
            Self::Ns(ns) => ns.target > 5,
            Self::Ee(ee) => ee.simple > 2,
            Self::Es(_) | Self::Fi => false,
        }
    }

    /// 5: a limit.
    fn is_over_limit(&self) -> bool {
        self.texts().iter().any(|text| text.len() > TEXT_MAX)
            || self.keys().iter().any(|key| key.len() > KEY_MAX)
            || match self {
                Self::Id(id) => {
                    !(1..=FIELDS_MAX).contains(&id.fields.len())
                        || is_long_path(&id.selector)
                        || id.fields.iter().any(|field| is_long_path(field))
                }
                Self::Es(es) => {
                    es.numbers.len() > NUMBERS_MAX || es.attributes.len() > ATTRIBUTES_MAX
                }
                Self::Ns(_) | Self::Ee(_) | Self::Fi => false,
            }
    }
}

/// Over seven `|` or sixteen `/`, wherever they stand in the text.
fn is_long_path(path: &[u8]) -> bool {
    let count = |letter| path.iter().filter(|&&byte| byte == letter).count();
    count(b'|') > BARS_MAX || count(b'/') > SLASHES_MAX
}

// ---- the bytes of a record

impl Record {
    /// Mark, length of the body, body.
    pub fn bytes(&self) -> Vec<u8> {
        framed(self.mark(), &self.body())
    }

    fn mark(&self) -> &'static [u8; 2] {
        match self {
            Self::Id(_) => b"ID",
            Self::Ns(_) => b"NS",
            Self::Es(_) => b"ES",
            Self::Ee(_) => b"EE",
            Self::Fi => b"FI",
        }
    }

    fn body(&self) -> Vec<u8> {
        let mut body = Vec::new();
        match self {
            Self::Id(id) => {
                body.push(id.kind);
                put_text(&mut body, &id.name);
                body.push(id.flag);
                for text in id.refer.iter().chain([&id.selector]) {
                    put_text(&mut body, text);
                }
                body.push(count_byte(id.fields.len()));
                for field in &id.fields {
                    put_text(&mut body, field);
                }
            }
            Self::Ns(ns) => {
                body.push(ns.target);
                put_text(&mut body, &ns.prefix);
                put_text(&mut body, &ns.uri);
            }
            Self::Es(es) => {
                put_text(&mut body, &es.space);
                put_text(&mut body, &es.name);
                body.push(count_byte(es.numbers.len()));
                body.extend(&es.numbers);
                body.push(count_byte(es.attributes.len()));
                for attribute in &es.attributes {
                    put_text(&mut body, &attribute.name);
                    put_text(&mut body, &attribute.key);
                }
            }
            Self::Ee(ee) => {
                body.push(ee.simple);
                put_text(&mut body, &ee.key);
            }
            Self::Fi => {}
        }
        body
    }
}

/// A body behind its mark and its length.
pub fn framed(mark: &[u8; 2], body: &[u8]) -> Vec<u8> {
    let mut bytes = mark.to_vec();
    put_two(&mut bytes, body.len());
    bytes.extend(body);
    bytes
}

fn count_byte(count: usize) -> u8 {
    count.try_into().expect("a count of one byte")
}
