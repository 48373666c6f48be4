//! A read path, and its bytes in the parsed-path area, written out from
//! `crates/path_entries/specs/Entries.antt`.

use std::fmt;

/// A name test as it is written. `local` is none for `*`.
#[derive(Clone, PartialEq, Eq)]
pub struct Test {
    pub prefix: Option<Vec<u8>>,
    pub local: Option<Vec<u8>>,
}

/// An alternative as it is written: `.//`, steps, and an attribute test at its end.
#[derive(Clone, PartialEq, Eq)]
pub struct Alternative {
    pub descendant: bool,
    pub steps: Vec<Test>,
    pub attribute: Option<Test>,
}

impl Test {
    /// `a`, `p:a`, `*` or `p:*`.
    pub fn new(text: &str) -> Self {
        let (prefix, local) = match text.split_once(':') {
            Some((prefix, local)) => (Some(prefix.into()), local),
            None => (None, text),
        };
        Self {
            prefix,
            local: Some(local.into()).filter(|_| local != "*"),
        }
    }
}

impl Alternative {
    /// By its tests as texts.
    pub fn new(descendant: bool, steps: &[&str], attribute: Option<&str>) -> Self {
        Self {
            descendant,
            steps: steps.iter().map(|step| Test::new(step)).collect(),
            attribute: attribute.map(Test::new),
        }
    }
}

/// The entries of a path: the number of alternatives, then each of them.
pub fn put(path: &[Alternative]) -> Vec<u8> {
    let mut bytes = vec![byte(path.len())];
    for alternative in path {
        bytes.push(alternative.descendant.into());
        bytes.push(byte(alternative.steps.len()));
        for step in &alternative.steps {
            put_test(&mut bytes, step);
        }
        bytes.push(alternative.attribute.is_some().into());
        if let Some(test) = &alternative.attribute {
            put_test(&mut bytes, test);
        }
    }
    bytes
}

/// A byte that says whether there is a prefix, and the prefix; then the local part. Each text
/// stands behind its length. No local part is empty, so no bytes are `*`.
fn put_test(bytes: &mut Vec<u8>, test: &Test) {
    bytes.push(test.prefix.is_some().into());
    if let Some(prefix) = &test.prefix {
        bytes.push(byte(prefix.len()));
        bytes.extend(prefix);
    }
    let local = test.local.as_deref().unwrap_or_default();
    bytes.push(byte(local.len()));
    bytes.extend(local);
}

fn byte(number: usize) -> u8 {
    number.try_into().expect("a number that a byte holds")
}

/// The path whose entries stand at the front of an area: its alternatives, as far as they are whole.
pub fn read(area: &[u8]) -> Vec<Alternative> {
    let mut rest = area;
    let count = take_byte(&mut rest).unwrap_or(0);
    (0..count)
        .map_while(|_| take_alternative(&mut rest))
        .collect()
}

fn take_alternative(rest: &mut &[u8]) -> Option<Alternative> {
    let descendant = take_byte(rest)? != 0;
    let count = take_byte(rest)?;
    let steps: Option<_> = (0..count).map(|_| take_test(rest)).collect();
    let steps = steps?;
    let attribute = match take_byte(rest)? {
        0 => None,
        _ => Some(take_test(rest)?),
    };
    Some(Alternative {
        descendant,
        steps,
        attribute,
    })
}

fn take_test(rest: &mut &[u8]) -> Option<Test> {
    let prefix = match take_byte(rest)? {
        0 => None,
        _ => Some(take_short(rest)?),
    };
    let local = Some(take_short(rest)?).filter(|local| !local.is_empty());
    Some(Test { prefix, local })
}

fn take_short(rest: &mut &[u8]) -> Option<Vec<u8>> {
    let length = take_byte(rest)?;
    rest.split_off(..length.into()).map(Into::into)
}

fn take_byte(rest: &mut &[u8]) -> Option<u8> {
    rest.split_off_first().copied()
}

/// `a`, `p:a`, `*`, `p:*`.
impl fmt::Debug for Test {
    fn fmt(&self, out: &mut fmt::Formatter) -> fmt::Result {
        if let Some(prefix) = &self.prefix {
            write!(out, "{}:", prefix.escape_ascii())?;
        }
        match &self.local {
            Some(local) => write!(out, "{}", local.escape_ascii()),
            None => out.write_str("*"),
        }
    }
}

/// `.//[a, p:*]@id`.
impl fmt::Debug for Alternative {
    fn fmt(&self, out: &mut fmt::Formatter) -> fmt::Result {
        out.write_str(if self.descendant { ".//" } else { "" })?;
        write!(out, "{:?}", self.steps)?;
        match &self.attribute {
            Some(test) => write!(out, "@{test:?}"),
            None => Ok(()),
        }
    }
}
