//! What the path checker is held against: its refusals by a plain reading of document 01, and
//! behind them the original. A difference is made small before it is shown.

use std::fmt;
use std::ops::Range;
use std::str::from_utf8;

use crate::calls::{PATH_LETTERS, prefixes_for, texts_of};
use crate::identity::{Checked, check_path};
use crate::oracle;
use crate::paths::{Kind, Question};
use crate::shrink::{shorter, shown, shrunk};
use crate::spaces;
use crate::tally::Answers;

/// What the checker is handed, byte by byte.
#[derive(Clone, PartialEq, Eq, PartialOrd, Ord)]
pub struct Call {
    pub kind: u8,
    pub path: Vec<u8>,
    pub prefixes: Vec<u8>,
}

impl Call {
    pub fn new(kind: u8, path: impl Into<Vec<u8>>, prefixes: impl Into<Vec<u8>>) -> Self {
        Self {
            kind,
            path: path.into(),
            prefixes: prefixes.into(),
        }
    }

    pub fn answer(&self) -> Checked {
        check_path(self.kind, &self.path, &self.prefixes)
    }
}

impl From<Question> for Call {
    fn from(question: Question) -> Self {
        Self::new(question.kind.number(), question.path, question.prefixes)
    }
}

impl fmt::Debug for Call {
    fn fmt(&self, out: &mut fmt::Formatter) -> fmt::Result {
        let (path, prefixes) = (shown(&self.path), shown(&self.prefixes));
        write!(out, "kind {}, path {path}, prefixes {prefixes}", self.kind)
    }
}

/// The refusal that is due, if any: document 01, the last paragraph of 'Turned back because of the
/// input'. It needs no original.
pub fn refusal(kind: u8, path: &[u8], prefixes: &[u8]) -> Option<u8> {
    if kind != 0 && kind != 1 {
        return Some(4);
    }
    if from_utf8(path).is_err() || from_utf8(prefixes).is_err() {
        return Some(3);
    }
    if path.len() > 255 || prefixes.len() > 16_384 {
        return Some(5);
    }
    None
}

/// The answer that is due. The original is asked of a path with ordinary characters for white space that is not XML's.
#[track_caller]
pub fn due(kind: u8, path: &[u8], prefixes: &[u8]) -> Checked {
    if let Some(number) = refusal(kind, path, prefixes) {
        return Checked::Refused(number);
    }
    let text = |bytes| from_utf8(bytes).expect("no refusal 3");
    let (path, prefixes) = spaces::stood_in(text(path), text(prefixes));
    match oracle::reason(Kind::BOTH[usize::from(kind)], &path, &prefixes) {
        None => Checked::Pass,
        Some(reason) => Checked::Reason(reason),
    }
}

/// The checker's answer, which must be the one that is due.
#[track_caller]
pub fn compared(kind: u8, path: &[u8], prefixes: &[u8]) -> Checked {
    let given = check_path(kind, path, prefixes);
    if given != due(kind, path, prefixes) {
        let call = Call::new(kind, path, prefixes);
        let differs = |call: &Call| call.answer() != due(call.kind, &call.path, &call.prefixes);
        let small = shrunk(call.clone(), smaller, differs);
        panic!("{}\nfound by {call:?}", difference(&small));
    }
    given
}

/// Compares the paths of exactly `length` letters that have these numbers, as both kinds.
pub fn compare_short_paths(length: u32, numbers: Range<usize>) -> Answers {
    let mut answers = Answers::default();
    for path in texts_of(&PATH_LETTERS, length, numbers) {
        for prefixes in prefixes_for(&path) {
            for kind in [0, 1] {
                let answer = compared(kind, path.as_bytes(), prefixes.as_bytes());
                answers.take(kind, answer);
            }
        }
    }
    answers
}

fn difference(call: &Call) -> String {
    let due = due(call.kind, &call.path, &call.prefixes);
    format!("{call:?}: answered {}, and {due} is due", call.answer())
}

/// The call with a stretch of its path, or else of its prefixes, taken out; the long ones first.
fn smaller(call: &Call) -> Box<dyn Iterator<Item = Call> + '_> {
    let paths = shorter(&call.path).map(|path| Call {
        path,
        ..call.clone()
    });
    let prefixes = shorter(&call.prefixes).map(|prefixes| Call {
        prefixes,
        ..call.clone()
    });
    Box::new(paths.chain(prefixes))
}
