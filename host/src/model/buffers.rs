//! A buffer of records: its frames, and the record call on one after another.

use super::bytes::{take_bytes, take_two};
use super::records::BODY_MAX;
use super::session::World;

/// A header in bytes: mark and stated length.
const HEADER: usize = 4;

/// The frame at the front: a header and the body that it states, where both are whole. A whole header that
/// states more than a body may have is a frame by itself.
pub fn take_frame<'a>(rest: &mut &'a [u8]) -> Option<&'a [u8]> {
    let stated = take_two(&mut rest.get(2..)?)?;
    let body = match usize::from(stated) {
        size if size > BODY_MAX => 0,
        size => size,
    };
    take_bytes(rest, HEADER + body)
}

impl World {
    /// Takes the frames of a buffer one after another until one is refused: the last reply, 0 where no frame
    /// is whole, and the bytes of the frames that were taken.
    pub fn run(&mut self, buffer: &[u8]) -> (u32, usize) {
        let (mut rest, mut taken) = (buffer, 0);
        while let Some(frame) = take_frame(&mut rest) {
            match self.step(frame) {
                0 => taken += frame.len(),
                refusal => return (refusal, taken),
            }
        }
        (0, taken)
    }
}
