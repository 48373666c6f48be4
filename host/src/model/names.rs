//! The open-names area (refusal 10: 64 times 514 bytes): for each open element its namespace and the
//! part of its qualified name after the last `:` ('Paths', an element's name).

use super::bytes::{Text, pad, part, put_text, take_text, write};
use super::records::TEXT_MAX;

/// An element's name.
#[derive(Debug, Clone, PartialEq, Eq)]
pub struct Name {
    pub space: Text,
    pub local: Text,
}

/// A name takes so many bytes, half of them for each text.
pub const NAME: usize = 514;
const HALF: usize = 257;

impl Name {
    /// Of a namespace and a qualified name.
    pub fn of(space: &[u8], qualified: &[u8]) -> Self {
        Self {
            space: space.into(),
            local: after_colon(qualified).into(),
        }
    }

    /// Each text behind its length, with zeros up to its half.
    pub fn bytes(&self) -> Vec<u8> {
        [half(&self.space), half(&self.local)].concat()
    }

    /// The name that a place holds: what stands behind its texts is not looked at.
    fn read(place: &[u8]) -> Option<Self> {
        let space = take_text(&mut part(place, 0, HALF))?;
        let local = take_text(&mut part(place, HALF, HALF))?;
        Some(Self { space, local })
    }
}

fn half(text: &[u8]) -> Vec<u8> {
    let mut bytes = Vec::new();
    put_text(&mut bytes, text);
    pad(bytes, HALF)
}

/// The part after the last `:`.
pub fn after_colon(name: &[u8]) -> &[u8] {
    name.rsplit(|&byte| byte == b':').next().unwrap_or(name)
}

/// The names in the first places of the area, the outermost element's first.
pub fn read(area: &[u8], depth: u32) -> Option<Vec<Name>> {
    let place = |number| part(area, NAME * number as usize, NAME);
    (0..depth).map(|number| Name::read(place(number))).collect()
}

/// Writes a name behind the first `depth` ones. A text of over 255 bytes is refused before: where one
/// is handed in, or where there is no such place, nothing changes.
pub fn write_behind(area: &mut [u8], depth: u32, name: &Name) {
    if name.space.len() <= TEXT_MAX && name.local.len() <= TEXT_MAX {
        write(area, NAME * depth as usize, &name.bytes());
    }
}
