//! The one spelling of a path (document 02, U6), made from what is read of it.

use std::str::from_utf8;

use super::paths;
use crate::entries::{Alternative, Test};
use crate::paths::Kind;

/// What the writer answers to a kind byte, a path and an output of so many bytes: the text, or the number of a refusal.
pub fn spelled(kind: u8, path: &[u8], room: usize) -> Result<Vec<u8>, u8> {
    let kind = match kind {
        0 => Kind::Selector,
        1 => Kind::Field,
        _ => return Err(4),
    };
    from_utf8(path).map_err(|_| 3)?;
    let count = |byte| path.iter().filter(|&&b| b == byte).count();
    if path.len() > 255 || count(b'|') > 7 || count(b'/') > 16 {
        return Err(5);
    }
    let text = text(&paths::read(kind, path).ok_or(23)?);
    if room < text.len() { Err(24) } else { Ok(text) }
}

/// The canonical text of these alternatives.
pub fn text(path: &[Alternative]) -> Vec<u8> {
    let alternatives: Vec<Vec<u8>> = path.iter().map(alternative).collect();
    alternatives.join(&b'|')
}

/// Its steps and its attribute test; `.` where there is neither.
fn alternative(alternative: &Alternative) -> Vec<u8> {
    let mut parts: Vec<Vec<u8>> = alternative.steps.iter().map(test).collect();
    if let Some(attribute) = &alternative.attribute {
        parts.push([b"@", &test(attribute)[..]].concat());
    }
    if parts.is_empty() {
        parts.push(b".".to_vec());
    }
    let descent: &[u8] = if alternative.descendant { b".//" } else { b"" };
    [descent, &parts.join(&b'/')].concat()
}

fn test(test: &Test) -> Vec<u8> {
    let prefix = test
        .prefix
        .iter()
        .flat_map(|prefix| [prefix, &b":"[..]].concat());
    let local = test.local.as_deref().unwrap_or(b"*");
    prefix.chain(local.iter().copied()).collect()
}
