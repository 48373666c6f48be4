//! What the program `icheck` prints for an input, by the model (document 01, 'One run, whole').

use std::fmt::Write;

use crate::model::bytes::standing;
use crate::model::reports::{self, RP};
use crate::model::session::World;
use crate::model::tuples::Tu;
use crate::streams::AMPLE;

/// The lines for the records of an input: one for each report, and one at the end or at a refusal.
pub fn due(input: &[u8]) -> String {
    let mut world = World::set_up(AMPLE, 0);
    let mut lines = String::from("event kind constraint field scope tuple\n");
    for (place, record) in (1..).zip(Records(input)) {
        let before = world.numbers.reports as usize;
        let refusal = world.step(record);
        if refusal != 0 {
            put(&mut lines, format_args!("refused {place} {refusal}"));
            return lines;
        }
        let used = world.numbers.reports as usize;
        let new = &world.report_store[before..used];
        for it in reports::read(new, 32).expect("reports that read") {
            put(
                &mut lines,
                format_args!(
                    "{} {} {} {} {} {}",
                    it.event, it.kind, it.constraint, it.field, it.scope, it.tuple
                ),
            );
        }
    }
    let numbers = world.numbers;
    let tuples = standing(&world.tuple_store[..numbers.tuples as usize], Tu::take).len();
    put(
        &mut lines,
        format_args!(
            "end {} {tuples} {}",
            numbers.events,
            numbers.reports as usize / RP
        ),
    );
    lines
}

fn put(lines: &mut String, line: std::fmt::Arguments) {
    writeln!(lines, "{line}").expect("a text takes any line");
}

/// The records of an input: a header and the body that it states, as far as they are there; of a header
/// that states over 16,384 bytes nothing but the header.
struct Records<'a>(&'a [u8]);

impl<'a> Iterator for Records<'a> {
    type Item = &'a [u8];

    fn next(&mut self) -> Option<&'a [u8]> {
        let stated = match self.0 {
            [] => return None,
            [_, _, low, high, ..] => usize::from(u16::from_le_bytes([*low, *high])),
            _ => 0,
        };
        let size = 4 + if stated > 16_384 { 0 } else { stated };
        let (record, rest) = self.0.split_at(size.min(self.0.len()));
        self.0 = rest;
        Some(record)
    }
}
