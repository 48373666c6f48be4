//! Numbers and texts in bytes ('The records', first paragraph): all numbers have their low byte
//! first, and a text is a two-byte length and so many bytes. What takes something from the front of
//! bytes gives none where it is not there whole.

use std::iter;

/// The bytes of a text. Whether they are UTF-8 is asked apart.
pub type Text = Vec<u8>;

/// One byte.
pub fn take_byte(rest: &mut &[u8]) -> Option<u8> {
    rest.split_off_first().copied()
}

/// So many bytes.
pub fn take_bytes<'a>(rest: &mut &'a [u8], size: usize) -> Option<&'a [u8]> {
    rest.split_off(..size)
}

/// A number of two bytes.
pub fn take_two(rest: &mut &[u8]) -> Option<u16> {
    let bytes = take_bytes(rest, 2)?;
    Some(u16::from_le_bytes([bytes[0], bytes[1]]))
}

/// A number of four bytes.
pub fn take_four(rest: &mut &[u8]) -> Option<u32> {
    let bytes = take_bytes(rest, 4)?;
    Some(u32::from_le_bytes([bytes[0], bytes[1], bytes[2], bytes[3]]))
}

/// A text behind its length.
pub fn take_text(rest: &mut &[u8]) -> Option<Text> {
    let size = take_two(rest)?;
    take_bytes(rest, size.into()).map(Into::into)
}

/// A record by its stated length alone: mark, length, and so many bytes, whatever they say.
pub fn take_frame<'a>(rest: &mut &'a [u8]) -> Option<&'a [u8]> {
    let from = *rest;
    take_two(rest)?;
    let size = usize::from(take_two(rest)?);
    take_bytes(rest, size)?;
    Some(&from[..4 + size])
}

/// So many texts.
pub fn take_texts(rest: &mut &[u8], count: u8) -> Option<Vec<Text>> {
    (0..count).map(|_| take_text(rest)).collect()
}

/// What stands one behind the other up to the very end.
pub fn read_all<'a, T>(
    bytes: &'a [u8],
    take: impl Fn(&mut &'a [u8]) -> Option<T>,
) -> Option<Vec<T>> {
    let mut rest = bytes;
    let mut list = Vec::new();
    while !rest.is_empty() {
        list.push(take(&mut rest)?);
    }
    Some(list)
}

/// What stands one behind the other at the front, as far as it is whole.
pub fn standing<'a, T>(bytes: &'a [u8], take: impl Fn(&mut &'a [u8]) -> Option<T>) -> Vec<T> {
    let mut rest = bytes;
    iter::from_fn(|| take(&mut rest)).collect()
}

/// Adds a number of two bytes.
pub fn put_two(bytes: &mut Vec<u8>, number: usize) {
    let number = u16::try_from(number).expect("a number of two bytes");
    bytes.extend(number.to_le_bytes());
}

/// Adds a number of four bytes.
pub fn put_four(bytes: &mut Vec<u8>, number: u32) {
    bytes.extend(number.to_le_bytes());
}

/// Adds a text behind its length.
pub fn put_text(bytes: &mut Vec<u8>, text: &[u8]) {
    put_two(bytes, text.len());
    bytes.extend(text);
}

/// Zeros behind, up to a length.
pub fn pad(mut bytes: Vec<u8>, length: usize) -> Vec<u8> {
    assert!(bytes.len() <= length, "{} bytes in {length}", bytes.len());
    bytes.resize(length, 0);
    bytes
}

/// So many bytes from a place on, as far as they are there.
pub fn part(bytes: &[u8], at: usize, size: usize) -> &[u8] {
    let start = at.min(bytes.len());
    let end = start.saturating_add(size).min(bytes.len());
    &bytes[start..end]
}

/// Writes bytes at a place. Where they do not fit nothing changes, and that is told.
pub fn write(area: &mut [u8], at: usize, bytes: &[u8]) -> bool {
    let end = at.checked_add(bytes.len());
    match end.and_then(|end| area.get_mut(at..end)) {
        Some(there) => {
            there.copy_from_slice(bytes);
            true
        }
        None => false,
    }
}
