//! Damage, and numbers near a limit.

use crate::random::Random;
use crate::texts;

/// Bytes with one of them changed, taken out or put in, with their end cut off, or with a two-byte
/// number in them made another: lengths among them.
pub fn damaged(random: &mut Random, bytes: &[u8]) -> Vec<u8> {
    if bytes.len() < 2 || random.once_in(2) {
        return texts::damaged(random, bytes);
    }
    let mut bytes = bytes.to_vec();
    let at = random.below(bytes.len() - 1);
    let number = u16::from_le_bytes([bytes[at], bytes[at + 1]]);
    let number = match random.below(4) {
        0 => number.wrapping_add(1),
        1 => number.wrapping_sub(1),
        2 => u16::MAX,
        _ => random.number() as u16,
    };
    bytes[at..at + 2].copy_from_slice(&number.to_le_bytes());
    bytes
}

/// Bytes with some cut off at their end, or some more.
pub fn cut_or_grown(random: &mut Random, bytes: &[u8]) -> Vec<u8> {
    let mut bytes = bytes.to_vec();
    match random.below(2) {
        0 => bytes.truncate(random.below(bytes.len() + 1)),
        _ => bytes.extend(texts::raw(random, 20)),
    }
    bytes
}

/// A number at a limit, next to it, or somewhere below twice as much.
pub fn near(random: &mut Random, limit: u64) -> u64 {
    match random.below(5) {
        0 => limit,
        1 => limit.saturating_add(1),
        2 => limit.saturating_sub(1),
        3 => random.number() % limit.saturating_mul(2).saturating_add(1),
        _ => random.pick(&[0, 1, 2]),
    }
}

/// A place in so many bytes: at a multiple of a width, anywhere, about the end, or so far off that a sum
/// with it would wrap.
pub fn place(random: &mut Random, length: usize, width: usize) -> usize {
    match random.below(12) {
        0..=6 => width * random.below(length / width + 1),
        7 | 8 => random.below(length + 1),
        9 => (length + 2).saturating_sub(random.below(width + 4)),
        10 => usize::MAX - random.below(2 * width),
        _ => random.pick(&[1 << 16, 1 << 31, 1 << 32, 1 << 63]) + random.below(width),
    }
}
