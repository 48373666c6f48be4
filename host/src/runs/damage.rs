//! A session that is damaged between two calls: what is lent is changed by somebody else, and the door must
//! answer as the model does.

use super::Run;
use crate::random::Random;
use crate::shrink::shrunk;
use crate::store_cases::{damaged_world, flipped_world};
use crate::streams::{self, Stream};
use crate::tally::Seen;

/// A stream, and how a copy of the session is damaged before one of its records.
#[derive(Clone)]
pub struct Damage {
    stream: Stream,
    at: usize,
    seed: u64,
}

/// Hands the damaged session the records behind the damage, and counts the replies.
pub type HandIn = fn(&mut Run, &[Vec<u8>], &mut Seen<u32>) -> Result<(), String>;

/// Damages a session of each of so many streams; the replies that were met. Panics at the first difference,
/// made small.
#[track_caller]
pub fn compare_damaged(seed: u64, count: u64, hand_in: HandIn) -> Seen<u32> {
    let mut random = Random::new(seed);
    let mut seen = Seen::default();
    for number in 0..count {
        let stream = streams::numbered(seed, number);
        // damaged_world wants the sixteen scopes.
        if stream.records.is_empty() || stream.lengths.scopes < 16 {
            continue;
        }
        let damage = Damage {
            at: random.below(stream.records.len()),
            stream,
            seed: random.number() | 1,
        };
        if let Err(fault) = damage.fault(hand_in, &mut seen) {
            panic!("{}", damage.shown(hand_in, fault));
        }
    }
    seen
}

impl Damage {
    /// What is wrong, if anything is.
    fn fault(&self, hand_in: HandIn, seen: &mut Seen<u32>) -> Result<(), String> {
        let (before, behind) = self.stream.records.split_at(self.at);
        let mut run = Run::set_up(&self.stream);
        for record in before {
            run.take(record)?;
        }
        let mut random = Random::new(self.seed);
        let world = match random.once_in(2) {
            true => damaged_world(&mut random, &run.world),
            false => flipped_world(&mut random, &run.world),
        };
        let mut copy = Run::of(world, &vec![self.stream.fill; self.stream.tail]);
        hand_in(&mut copy, behind, seen)
    }

    /// The fault, with the smallest stream that still has one.
    fn shown(self, hand_in: HandIn, fault: String) -> String {
        let fault_of = |it: &Self| it.fault(hand_in, &mut Seen::default()).err();
        let small = shrunk(self, Self::smaller, |it| fault_of(it).is_some());
        let fault = fault_of(&small).unwrap_or(fault);
        let (at, stream) = (small.at + 1, small.stream);
        format!("{fault}\ndamaged before record {at}\n{stream:?}")
    }

    /// With fewer records before the damage or behind it, or with shorter ones.
    fn smaller(&self) -> Box<dyn Iterator<Item = Self> + '_> {
        Box::new(self.stream.smaller().map(|stream| Self {
            at: self.at.min(stream.records.len()),
            stream,
            seed: self.seed,
        }))
    }
}
