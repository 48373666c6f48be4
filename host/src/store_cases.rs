//! What the doors to a session's records, stores and areas are fed: random ones, and damaged copies of
//! them. What lies near a limit comes more often than by chance.

use crate::model::bytes::part;
use crate::model::reports::append;
use crate::shrink::shown;

mod damage;
mod records;
mod sessions;

pub use damage::{cut_or_grown, damaged, near, place};
pub use records::{definition_records, record, record_off, text};
pub use sessions::{
    cell, damaged_world, flipped_world, name, report, scopes, session, tuple, world,
};

/// Bytes on both sides of what is lent.
const GUARD: [u8; 64] = [0xA5; 64];

/// What a call leaves in an area that it is lent. Other bytes lie on both sides of the area, so that a
/// write outside shows.
#[track_caller]
pub fn lent(area: &[u8], call: impl FnOnce(&mut [u8])) -> Vec<u8> {
    let mut bytes = [&GUARD, area, &GUARD].concat();
    let inside = GUARD.len()..GUARD.len() + area.len();
    call(&mut bytes[inside.clone()]);
    let outside = [&bytes[..inside.start], &bytes[inside.end..]].concat();
    assert_eq!(outside, [GUARD, GUARD].concat(), "a write outside the area");
    bytes[inside].to_vec()
}

/// What a call left must be what is due. A difference is shown from its first byte on.
#[track_caller]
pub fn assert_left(given: &[u8], due: &[u8], of: impl FnOnce() -> String) {
    if given != due {
        panic!("{}\n{}", difference(given, due), of());
    }
}

/// Bytes appended to a store behind its used ones, by a door and by the model: both must leave the same
/// store and answer the same used length. Whether there was room.
#[track_caller]
pub fn assert_appends(
    before: &[u8],
    used: usize,
    bytes: &[u8],
    door: impl FnOnce(&mut [u8]) -> usize,
) -> bool {
    let mut next = 0;
    let given = lent(before, |store| next = door(store));
    let mut due = before.to_vec();
    let due_next = append(&mut due, used, bytes);
    let of = || format!("{} behind {used} of {}", shown(bytes), shown(before));
    assert_eq!(next, due_next, "{}", of());
    assert_left(&given, &due, of);
    due_next != used
}

/// Where two areas begin to differ, and how.
pub fn difference(given: &[u8], due: &[u8]) -> String {
    let same = given.iter().zip(due).take_while(|(a, b)| a == b).count();
    format!(
        "{} bytes, and {} are due; from {same} on {:?}, and {:?} are due",
        given.len(),
        due.len(),
        part(given, same, 8),
        part(due, same, 8)
    )
}
