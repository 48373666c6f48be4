//! Texts that the doors are fed: valid ones, damaged ones and plain random bytes.

use crate::random::Random;

/// Characters where some answer changes: the ends of each encoding length and of the surrogates,
/// white space that is a name character (U+1680) or is not, and characters that may go on in a name
/// but not start it.
const TELLING: &str = "\0 -.0:A_z\u{7F}\u{80}\u{A0}\u{B7}\u{D7}\u{300}\u{7FF}\u{800}\u{1680}\
    \u{203F}\u{D7FF}\u{E000}\u{FFFF}\u{10000}\u{10FFFF}";

/// Bytes where RFC 3629 draws a line.
const TELLING_BYTES: [u8; 24] = [
    0x00, 0x41, 0x7F, 0x80, 0x8F, 0x90, 0x9F, 0xA0, 0xBF, 0xC0, 0xC1, 0xC2, 0xDF, 0xE0, 0xE1, 0xEC,
    0xED, 0xEE, 0xEF, 0xF0, 0xF1, 0xF4, 0xF5, 0xFF,
];

/// Every character, in order.
pub fn scalars() -> impl Iterator<Item = char> {
    '\0'..=char::MAX
}

/// A telling character, or one of a random encoding length.
pub fn scalar(random: &mut Random) -> char {
    let lengths = [
        (0, 0x7F),
        (0x80, 0x7FF),
        (0x800, 0xFFFF),
        (0x10000, 0x10FFFF),
    ];
    let (low, high) = random.pick(&lengths);
    let code = low + random.below(high - low + 1);
    match char::from_u32(code as u32) {
        Some(c) if !random.once_in(5) => c,
        _ => random.character(TELLING),
    }
}

/// A valid text of at most `most` characters.
pub fn valid(random: &mut Random, most: usize) -> String {
    let count = random.below(most + 1);
    (0..count).map(|_| scalar(random)).collect()
}

/// A text with one byte changed, taken out or put in, or with its end cut off.
pub fn damaged(random: &mut Random, text: &[u8]) -> Vec<u8> {
    let mut text = text.to_vec();
    let at = random.below(text.len() + 1);
    let byte = raw_byte(random);
    match random.below(4) {
        0 if at < text.len() => text[at] = byte,
        1 if at < text.len() => drop(text.remove(at)),
        2 => text.truncate(at),
        _ => text.insert(at, byte),
    }
    text
}

/// At most `most` bytes with no plan.
pub fn raw(random: &mut Random, most: usize) -> Vec<u8> {
    let count = random.below(most + 1);
    (0..count).map(|_| raw_byte(random)).collect()
}

fn raw_byte(random: &mut Random) -> u8 {
    if random.once_in(2) {
        random.byte()
    } else {
        random.pick(&TELLING_BYTES)
    }
}

/// The bytes of a code point by the pattern of UTF-8, surrogates too, for which they are not UTF-8.
pub fn encoded(code: u32) -> Vec<u8> {
    match char::from_u32(code) {
        Some(c) => c.to_string().into_bytes(),
        None => vec![
            0xE0 | (code >> 12) as u8,
            0x80 | (code >> 6 & 0x3F) as u8,
            0x80 | (code & 0x3F) as u8,
        ],
    }
}
