//! The five numbers of a session, and the counts that are packed into one of them (refusal 10: no
//! count above its limit, no used length past its store, no area too short).

pub use crate::identity::Numbers;

use super::names::NAME;
use super::scopes::SCOPES_MAX;
use super::selections::{SELECTION, SELECTIONS_MAX};

/// How long the three stores and the four areas are; of the scope list how many records it has.
#[derive(Debug, Clone, Copy, Default, PartialEq, Eq)]
pub struct Lengths {
    pub definitions: usize,
    pub tuples: usize,
    pub reports: usize,
    pub names: usize,
    pub scopes: usize,
    pub cells: usize,
    pub paths: usize,
}

/// The stage's number, the open scopes and selections, the scopes opened so far.
#[derive(Debug, Clone, Copy, Default, PartialEq, Eq)]
pub struct Counts {
    pub stage: u32,
    pub scopes: u32,
    pub selections: u32,
    pub opened: u64,
}

/// Before the first ES; from then on, with so many elements open; after FI.
#[derive(Debug, Clone, Copy, PartialEq, Eq)]
pub enum Stage {
    Before,
    During(u32),
    Done,
}

/// 19: the events that are taken.
pub const EVENTS_MAX: u64 = 1_000_000;
/// 14: the elements that may be open.
pub const DEPTH_MAX: usize = 64;

/// 10: the least length of the path area.
pub const PATHS_MIN: usize = 1_024;
/// 10: the least length of the open-names area, 64 times 514.
pub const NAMES_MIN: usize = DEPTH_MAX * NAME;
/// 10: the least length of the field cells, 32 times 4 times 128.
pub const CELLS_MIN: usize = SELECTIONS_MAX * SELECTION;

/// An ES lists 8 constraints at most, so it opens no more scopes.
const SCOPES_PER_EVENT: u64 = 8;
/// At an EE each of the 32 open selections gives a TU at most.
pub const TUPLES_PER_EVENT: u64 = 32;

/// The stage's number after FI.
const DONE: u32 = 66;

impl Stage {
    /// 0 before the first ES, 66 after FI, else one more than the open elements.
    pub fn of(number: u32) -> Self {
        match number {
            0 => Self::Before,
            DONE => Self::Done,
            _ => Self::During(number - 1),
        }
    }

    /// The number of a stage.
    pub fn number(self) -> u32 {
        match self {
            Self::Before => 0,
            Self::During(depth) => 1 + depth,
            Self::Done => DONE,
        }
    }

    /// How many elements are open.
    pub fn depth(self) -> u32 {
        match self {
            Self::During(depth) => depth,
            Self::Before | Self::Done => 0,
        }
    }
}

impl Counts {
    /// The packed number; where the scopes opened are too many for four bytes, 0.
    pub fn pack(self) -> u64 {
        let Ok(opened) = u32::try_from(self.opened) else {
            return 0;
        };
        let upper = u64::from(self.selections) + 64 * u64::from(opened);
        u64::from(self.stage) + 128 * (u64::from(self.scopes) + 32 * upper)
    }

    /// The counts that a number packs.
    pub fn unpack(running: u64) -> Self {
        Self {
            stage: (running % 128) as u32,
            scopes: (running / 128 % 32) as u32,
            selections: (running / 128 / 32 % 64) as u32,
            opened: running / 128 / 32 / 64,
        }
    }
}

/// Whether the areas are long enough, each count is within its limit and each used length within its
/// store; before the first ES nothing was opened and nothing put out.
pub fn fit(numbers: Numbers, lengths: Lengths, counts: Counts) -> bool {
    let areas = lengths.paths >= PATHS_MIN
        && lengths.scopes >= SCOPES_MAX
        && lengths.names >= NAMES_MIN
        && lengths.cells >= CELLS_MIN;
    let begun = Stage::of(counts.stage) != Stage::Before
        || (numbers.running, numbers.tuples, numbers.reports) == (0, 0, 0);
    let limits = numbers.events <= EVENTS_MAX
        && counts.stage <= DONE
        && counts.scopes as usize <= SCOPES_MAX
        && counts.selections as usize <= SELECTIONS_MAX
        && counts.opened <= SCOPES_PER_EVENT * numbers.events;
    let stores = numbers.definitions <= lengths.definitions as u64
        && numbers.tuples <= lengths.tuples as u64
        && numbers.reports <= lengths.reports as u64;
    areas && begun && limits && stores
}
