//! The report store: RP records of eighteen bytes, one behind the other ('The records', RP; 'The tree
//! definition', the report kinds).

use super::bytes::{put_four, read_all, standing, take_byte, take_bytes, take_four, write};
use super::definitions::in_mask;

/// RP, a report. An unused number is 0.
#[derive(Debug, Clone, Copy, PartialEq, Eq)]
pub struct Rp {
    pub kind: u8,
    pub constraint: u8,
    pub field: u8,
    pub scope: u32,
    pub event: u32,
    pub tuple: u32,
}

/// An RP has no length field.
pub const RP: usize = 18;

/// The kind that says that a constraint's paths do not read.
pub const UNREAD: u8 = 6;

impl Rp {
    /// Its bytes; the one between field index and scope is zero.
    pub fn bytes(&self) -> Vec<u8> {
        let mut bytes = vec![b'R', b'P', self.kind, self.constraint, self.field, 0];
        put_four(&mut bytes, self.scope);
        put_four(&mut bytes, self.event);
        put_four(&mut bytes, self.tuple);
        bytes
    }

    /// The RP at the front: its mark and its zero byte are asked, its numbers are taken as they stand.
    pub fn take(rest: &mut &[u8]) -> Option<Self> {
        if take_bytes(rest, 2)? != b"RP" {
            return None;
        }
        let kind = take_byte(rest)?;
        let constraint = take_byte(rest)?;
        let field = take_byte(rest)?;
        if take_byte(rest)? != 0 {
            return None;
        }
        Some(Self {
            kind,
            constraint,
            field,
            scope: take_four(rest)?,
            event: take_four(rest)?,
            tuple: take_four(rest)?,
        })
    }
}

/// The bytes of RPs one behind the other.
pub fn store(reports: &[Rp]) -> Vec<u8> {
    reports.iter().flat_map(Rp::bytes).collect()
}

/// The RPs that the used bytes of a store are, each of a constraint that is defined.
pub fn read(used: &[u8], constraints: usize) -> Option<Vec<Rp>> {
    let reports = read_all(used, Rp::take)?;
    let fits = |report: &Rp| usize::from(report.constraint) < constraints;
    reports.iter().all(fits).then_some(reports)
}

/// Whether kind 6 was reported for a constraint of a set.
pub fn is_told(used: &[u8], named: u32) -> bool {
    let reports = standing(used, Rp::take);
    reports
        .iter()
        .any(|report| report.kind == UNREAD && in_mask(named, report.constraint))
}

/// Adds bytes behind the used ones of a store and answers the new used length. Where there is no room
/// nothing changes.
pub fn append(store: &mut [u8], used: usize, bytes: &[u8]) -> usize {
    match write(store, used, bytes) {
        true => used + bytes.len(),
        false => used,
    }
}
