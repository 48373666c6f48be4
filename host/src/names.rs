//! The names of the open elements, and their bytes in the open-names area, written out from
//! `crates/session_spec/specs/Layout.antt` (`put_name`).

use crate::definitions::put_text;

/// How many bytes a name takes, and each of its two texts.
pub const NAME: usize = 514;
const HALF: usize = 257;

/// An element's namespace, empty for none, and its qualified name.
#[derive(Debug, Clone, PartialEq, Eq)]
pub struct Name {
    pub space: String,
    pub qualified: String,
}

impl Name {
    /// The part after the last `:`.
    pub fn local(&self) -> &str {
        match self.qualified.rfind(':') {
            Some(colon) => &self.qualified[colon + 1..],
            None => &self.qualified,
        }
    }

    fn bytes(&self) -> Vec<u8> {
        let mut bytes = Vec::with_capacity(NAME);
        put_text(&mut bytes, &self.space);
        bytes.resize(HALF, 0);
        put_text(&mut bytes, self.local());
        bytes.resize(NAME, 0);
        bytes
    }
}

/// The names one behind the other, the outermost element's first.
pub fn put(names: &[Name]) -> Vec<u8> {
    names.iter().flat_map(Name::bytes).collect()
}

/// Namespace and local part of the element at a depth, from 1, as they stand in an area of any
/// bytes: what is not there is empty.
pub fn read(area: &[u8], depth: usize) -> (&[u8], &[u8]) {
    let start = NAME * (depth - 1);
    let name = part(area, start, NAME);
    let half = |start| {
        let half = part(name, start, HALF);
        let byte = |at| usize::from(half.get(at).copied().unwrap_or(0));
        part(half, 2, byte(0) + 256 * byte(1))
    };
    (half(0), half(HALF))
}

/// So many bytes from a place on, as far as they are there.
fn part(bytes: &[u8], start: usize, length: usize) -> &[u8] {
    let start = start.min(bytes.len());
    let end = (start + length).min(bytes.len());
    &bytes[start..end]
}
