//! What the path reader is held against: the original's reading of a path, in the bytes of its
//! entries, and a plain reading of the limits. A difference is made small before it is shown.

use std::fmt;
use std::ops::Range;
use std::str::from_utf8;
use std::sync::LazyLock;

use crate::calls::{PATH_LETTERS, texts_of};
use crate::doors::{self, Parsed};
use crate::entries::{self, Alternative};
use crate::model;
use crate::oracle;
use crate::paths::Kind;
use crate::shrink::{shorter, shown, shrunk};
use crate::spaces;
use crate::tally::Readings;

/// A path of at most so many bytes is read, into an area of at least so many: its entries stand in
/// them.
const PATH_MAX: usize = 255;
pub const AREA_MIN: usize = 1024;

/// What the reader is handed: of the parsed-path area the length.
#[derive(Clone)]
pub struct Call {
    pub kind: Kind,
    pub path: Vec<u8>,
    pub area: usize,
}

impl fmt::Debug for Call {
    fn fmt(&self, out: &mut fmt::Formatter) -> fmt::Result {
        let Self { kind, path, area } = self;
        write!(out, "{kind:?} {}, area of {area} bytes", shown(path))
    }
}

/// What is due.
#[derive(Debug, Clone, PartialEq, Eq)]
pub enum Due {
    NoRoom,
    Unread,
    Read(Vec<Alternative>),
}

/// Bytes that are no UTF-8 are unread; the original is handed texts alone. What a path with other white space than XML's
/// is read as, the model says.
pub fn due(kind: Kind, path: &[u8], area: usize) -> Due {
    if path.len() > PATH_MAX || area < AREA_MIN {
        return Due::NoRoom;
    }
    let read = |path: &str| match spaces::holds_other(path) {
        true => model::paths::read(kind, path.as_bytes()),
        false => oracle::reader::read(kind, path),
    };
    match from_utf8(path).ok().and_then(read) {
        Some(alternatives) => Due::Read(alternatives),
        None => Due::Unread,
    }
}

/// Reads a path; its answer and the bytes that it leaves must be those that are due.
#[track_caller]
pub fn compared(kind: Kind, path: &[u8], area: usize) -> Due {
    let due = due(kind, path, area);
    if fault(kind, path, area, &due).is_some() {
        let path = path.into();
        report(Call { kind, path, area });
    }
    due
}

/// Reads the paths of exactly `length` letters that have these numbers, as both kinds.
pub fn compare_short_paths(length: u32, numbers: Range<usize>) -> Readings {
    let mut readings = Readings::default();
    for path in texts_of(&PATH_LETTERS, length, numbers) {
        for kind in Kind::BOTH {
            readings.take(kind, &compared(kind, path.as_bytes(), AREA_MIN + 8));
        }
    }
    readings
}

#[track_caller]
fn report(call: Call) -> ! {
    let fault_of = |call: &Call| {
        let due = due(call.kind, &call.path, call.area);
        fault(call.kind, &call.path, call.area, &due)
            .map(|fault| format!("{fault}; {due:?} is due"))
    };
    let small = shrunk(call.clone(), smaller, |call| fault_of(call).is_some());
    let fault = fault_of(&small).expect("it still differs");
    panic!("{small:?}: {fault}\nfound by {call:?}");
}

/// The call with a stretch of its path taken out.
fn smaller(call: &Call) -> Box<dyn Iterator<Item = Call> + '_> {
    Box::new(shorter(&call.path).map(|path| Call {
        path,
        ..call.clone()
    }))
}

/// Bytes that stand in no text and are no small number: what is not written shows.
static BACKGROUND: LazyLock<Vec<u8>> =
    LazyLock::new(|| (0..32_768).map(|at| 0xF8 + (at % 7) as u8).collect());

/// Bytes on both sides of the area, so that a write outside would show.
const GUARD: usize = 16;

/// What is wrong with the reader's answer or with what it leaves, if anything is.
pub fn fault(kind: Kind, path: &[u8], area: usize, due: &Due) -> Option<String> {
    let before = &BACKGROUND[..GUARD + area + GUARD];
    let mut after = before.to_vec();
    let answer = doors::parse(kind == Kind::Field, path, &mut after[GUARD..GUARD + area]);
    let (expected, from) = match due {
        Due::NoRoom => (Parsed::NoRoom, 0),
        Due::Unread => (Parsed::Unread, AREA_MIN),
        Due::Read(alternatives) => {
            let entries = entries::put(alternatives);
            let lent = &after[GUARD..GUARD + area];
            if !lent.starts_with(&entries) || entries::read(lent) != *alternatives {
                return Some(format!("answered {answer:?}, left {}", left(lent, answer)));
            }
            (Parsed::Read(entries.len()), entries.len())
        }
    };
    if answer != expected {
        return Some(format!("answered {answer:?}"));
    }
    let kept = after[..GUARD] == before[..GUARD] && after[GUARD + from..] == before[GUARD + from..];
    (!kept).then(|| "changed a byte that is to stay".into())
}

/// The entries that the reader says it wrote.
fn left(area: &[u8], answer: Parsed) -> String {
    let length = match answer {
        Parsed::Read(length) => length.min(area.len()),
        _ => 0,
    };
    format!(
        "{:?}, which are {:?}",
        &area[..length],
        entries::read(&area[..length])
    )
}
