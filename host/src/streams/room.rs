//! How long the stores and areas of a stream are: as long as need be to the byte, one byte shorter, or
//! ample.

use super::Stream;
use crate::model::counts::{CELLS_MIN, NAMES_MIN, Numbers, PATHS_MIN};
use crate::model::scopes::SCOPES_MAX;
use crate::random::Random;

/// A scope of the list in bytes.
pub const SCOPE: usize = 12;

/// Chooses the lengths. A store is often as long as what the records up to some place use of an ample one,
/// or one byte shorter, so that it is full or one byte short there.
pub fn choose(random: &mut Random, stream: &mut Stream) {
    if random.once_in(2) {
        let used = used(stream);
        let mut length = |odds: usize, of: fn(&Numbers) -> u64, ample: usize| {
            let at = random.below(used.len());
            match random.once_in(odds) {
                true => (of(&used[at]) as usize).saturating_sub(random.below(2)),
                false => ample,
            }
        };
        let lengths = &mut stream.lengths;
        lengths.definitions = length(6, |it| it.definitions, lengths.definitions);
        lengths.tuples = length(2, |it| it.tuples, lengths.tuples);
        lengths.reports = length(2, |it| it.reports, lengths.reports);
    }
    areas(random, stream);
}

/// The five numbers after each record, and at first, with ample stores.
fn used(stream: &Stream) -> Vec<Numbers> {
    let mut world = stream.set_up();
    let mut used = vec![world.numbers];
    for record in &stream.records {
        world.step(record);
        used.push(world.numbers);
    }
    used
}

/// Most areas have their least lengths, some are longer, and a few are one byte too short.
fn areas(random: &mut Random, stream: &mut Stream) {
    let mut length = |least: usize| match random.below(100) {
        0 => least - 1,
        1..=5 => least + 1,
        6 => least + 600,
        _ => least,
    };
    let lengths = &mut stream.lengths;
    lengths.paths = length(PATHS_MIN);
    lengths.names = length(NAMES_MIN);
    lengths.cells = length(CELLS_MIN);
    let scopes = length(SCOPES_MAX * SCOPE);
    lengths.scopes = scopes / SCOPE;
    stream.tail = scopes % SCOPE;
}
