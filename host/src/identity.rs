//! The library's calls as safe Rust: what `include/identity.h` declares.
#![allow(unsafe_code)]

use std::fmt;
use std::ops::Range;

/// The archive's functions as they are exported: a slice is a pointer and a length, a lent number is a
/// pointer.
mod archive {
    unsafe extern "C" {
        pub fn identity_check_path(
            kind: u8,
            path: *const u8,
            path_len: usize,
            prefixes: *const u8,
            prefixes_len: usize,
        ) -> u32;
        pub fn identity_spell_path(
            kind: u8,
            path: *const u8,
            path_len: usize,
            out: *mut u8,
            out_len: usize,
            size: *mut u64,
        ) -> u32;
        pub fn identity_compare_names(
            a: *const u8,
            a_len: usize,
            b: *const u8,
            b_len: usize,
            pairs: *mut u64,
        ) -> u32;
        pub fn identity_record(
            events: *mut u64,
            running: *mut u64,
            definitions_used: *mut u64,
            tuples_used: *mut u64,
            reports_used: *mut u64,
            record: *const u8,
            record_len: usize,
            definitions: *mut u8,
            definitions_len: usize,
            tuples: *mut u8,
            tuples_len: usize,
            reports: *mut u8,
            reports_len: usize,
            paths: *mut u8,
            paths_len: usize,
            scopes: *mut u8,
            scopes_len: usize,
            names: *mut u8,
            names_len: usize,
            cells: *mut u8,
            cells_len: usize,
        ) -> u32;
        pub fn identity_run(
            events: *mut u64,
            running: *mut u64,
            definitions_used: *mut u64,
            tuples_used: *mut u64,
            reports_used: *mut u64,
            buffer: *const u8,
            buffer_len: usize,
            definitions: *mut u8,
            definitions_len: usize,
            tuples: *mut u8,
            tuples_len: usize,
            reports: *mut u8,
            reports_len: usize,
            paths: *mut u8,
            paths_len: usize,
            scopes: *mut u8,
            scopes_len: usize,
            names: *mut u8,
            names_len: usize,
            cells: *mut u8,
            cells_len: usize,
            taken: *mut u64,
        ) -> u32;
        pub fn identity_tuple_field(
            used: u64,
            tuples: *const u8,
            tuples_len: usize,
            number: u32,
            field: u32,
            start: *mut u64,
            size: *mut u64,
        );
    }
}

// ---- the path checker

/// What the path checker answers.
#[derive(Debug, Clone, Copy, PartialEq, Eq, PartialOrd, Ord)]
pub enum Checked {
    /// The text is a path of its kind, and each of its prefixes is declared.
    Pass,
    /// It is not: the k of the reason Xk of document 01, 1 to 14.
    Reason(u8),
    /// It was turned back unread: 4 for another kind byte than 0 and 1, else 3 for a text that is
    /// not UTF-8, else 5 for a path over 255 bytes or prefixes over 16,384.
    Refused(u8),
}

/// Checks the path of a selector (kind 0) or of a field (kind 1) by the grammar of XML Schema 1.0
/// Part 1, 3.11.6. White space between tokens is space, tab, carriage return or line feed. `prefixes` has the declared
/// prefixes with single spaces between; `xml` is always declared.
///
/// Any bytes may be handed in. Nothing is kept between calls, and nothing is allocated.
///
/// ```
/// use host::identity::{Checked, check_path};
///
/// assert_eq!(check_path(1, b"voucher/@p:id", b"p"), Checked::Pass);
/// assert_eq!(check_path(1, b"voucher/@p:id", b""), Checked::Reason(11));
/// assert_eq!(check_path(0, b"voucher/@p:id", b"p"), Checked::Reason(8));
/// assert_eq!(check_path(2, b"voucher", b""), Checked::Refused(4));
/// ```
///
/// # Panics
///
/// Where the archive answers a number that the header does not list. It is proved not to.
pub fn check_path(kind: u8, path: &[u8], prefixes: &[u8]) -> Checked {
    // The lengths are those of the slices, and the function is proved to stay inside them.
    let number = unsafe {
        archive::identity_check_path(
            kind,
            path.as_ptr(),
            path.len(),
            prefixes.as_ptr(),
            prefixes.len(),
        )
    };
    match number {
        0 => Checked::Pass,
        3..=5 => Checked::Refused(number as u8),
        101..=114 => Checked::Reason((number - 100) as u8),
        _ => panic!(
            "identity_check_path answered {number} to kind {kind}, path '{}', prefixes '{}'",
            path.escape_ascii(),
            prefixes.escape_ascii()
        ),
    }
}

/// `pass`, `X14`, `refused 3`.
impl fmt::Display for Checked {
    fn fmt(&self, out: &mut fmt::Formatter) -> fmt::Result {
        match self {
            Self::Pass => out.pad("pass"),
            Self::Reason(k) => out.pad(&format!("X{k}")),
            Self::Refused(n) => out.pad(&format!("refused {n}")),
        }
    }
}

// ---- one spelling

/// What the writer of paths answers.
#[derive(Debug, Clone, Copy, PartialEq, Eq)]
pub enum Spelled {
    /// The canonical text stands at the front of the output and has so many bytes.
    Text(usize),
    /// Nothing was written: 4 for another kind byte than 0 and 1, else 3 for a path that is not UTF-8, else 5 for one over
    /// 255 bytes, seven `|` or sixteen `/`, else 23 where the reader does not take it, else 24 where the text is longer
    /// than the output.
    Refused(u8),
}

/// Writes the one spelling of a path that the reader takes, as a selector (kind 0) or as a field (kind 1), at the front of
/// `out`: no white space, no `child::`, `@` for `attribute::`, and `.` only where nothing else would stand. 255 bytes of
/// output are always enough; what is behind the text stays.
///
/// ```
/// use host::identity::{Spelled, spell_path};
///
/// let mut out = [b'?'; 255];
/// assert_eq!(spell_path(1, b" .//./attribute::id ", &mut out), Spelled::Text(6));
/// assert_eq!(&out[..7], b".//@id?");
/// assert_eq!(spell_path(0, b"@id", &mut out), Spelled::Refused(23));
/// ```
///
/// # Panics
///
/// Where the archive answers a number that the header does not list. It is proved not to.
pub fn spell_path(kind: u8, path: &[u8], out: &mut [u8]) -> Spelled {
    let mut size = 0;
    // The lengths are those of the slices, and the function is proved to stay inside them.
    let number = unsafe {
        archive::identity_spell_path(
            kind,
            path.as_ptr(),
            path.len(),
            out.as_mut_ptr(),
            out.len(),
            &mut size,
        )
    };
    match number {
        0 => Spelled::Text(size as usize),
        3..=5 | 23 | 24 => Spelled::Refused(number as u8),
        _ => panic!(
            "identity_spell_path answered {number} to kind {kind}, path '{}'",
            path.escape_ascii()
        ),
    }
}

// ---- names compared

/// What a comparison of two names says.
#[derive(Debug, Clone, Copy, PartialEq, Eq)]
pub struct Compared {
    /// Whether the two are the same bytes in the same order.
    pub same: bool,
    /// How many pairs of bytes were looked at: none where the lengths differ, else the equal ones at
    /// the end and the first unequal one, if there is one.
    pub pairs: u64,
}

/// Compares two names: their lengths first, then their bytes from the last one back, up to the first
/// pair that differs. The library compares names, prefixes, URIs and the texts of tuples so.
///
/// ```
/// use host::identity::{Compared, compare_names};
///
/// let compared = compare_names(b"voucher-header", b"voucher-header-total");
/// assert_eq!(compared, Compared { same: false, pairs: 0 });
/// let compared = compare_names(b"number-of-voucher", b"amount-of-voucher");
/// assert_eq!(compared, Compared { same: false, pairs: 12 });
/// let compared = compare_names(b"voucher-header", b"voucher-header");
/// assert_eq!(compared, Compared { same: true, pairs: 14 });
/// ```
pub fn compare_names(a: &[u8], b: &[u8]) -> Compared {
    let mut pairs = 0;
    // The lengths are those of the slices, and the function is proved to stay inside them.
    let same = unsafe {
        archive::identity_compare_names(a.as_ptr(), a.len(), b.as_ptr(), b.len(), &mut pairs)
    };
    Compared {
        same: same == 1,
        pairs,
    }
}

// ---- a session

/// The five numbers of a session. At set-up all are 0; between calls nobody else writes them.
#[derive(Debug, Clone, Copy, Default, PartialEq, Eq)]
pub struct Numbers {
    /// The records taken so far.
    pub events: u64,
    /// The running counts, packed into one number.
    pub running: u64,
    /// The used bytes of the definition store,
    pub definitions: u64,
    /// of the tuple store,
    pub tuples: u64,
    /// and of the report store.
    pub reports: u64,
}

/// The stores and areas of a session, which each call is lent: of its own (`Vec<u8>`) or borrowed
/// (`&mut [u8]`). At set-up they may hold anything; between calls nobody else writes them.
#[derive(Debug, Clone)]
pub struct Stores<B> {
    /// The definition store keeps ID and NS records whole.
    pub definitions: B,
    /// The tuple store takes TU records.
    pub tuples: B,
    /// The report store takes RP records.
    pub reports: B,
    /// The path area: [`PATHS_MIN`] bytes at least. What it holds between calls counts for nothing; bytes behind
    /// the first [`PATHS_MIN`] stay as they are.
    pub paths: B,
    /// The open scopes: [`SCOPES_MIN`] bytes at least.
    pub scopes: B,
    /// The names of the open elements: [`NAMES_MIN`] bytes at least.
    pub names: B,
    /// The field cells of the open selections: [`CELLS_MIN`] bytes at least.
    pub cells: B,
}

/// The least lengths of the areas. The stores may have any.
pub const PATHS_MIN: usize = 1_024;
/// Sixteen scopes of twelve bytes.
pub const SCOPES_MIN: usize = 16 * 12;
/// 64 names of 514 bytes.
pub const NAMES_MIN: usize = 64 * 514;
/// 32 selections of four cells of 128 bytes.
pub const CELLS_MIN: usize = 32 * 4 * 128;

/// No call needs more of the stack than this, in bytes: a run keeps marks of the tuples there, and an FI a table
/// of where they are.
pub const STACK_MAX: usize = 327_680;

/// Refused: more than 64 elements would be open.
pub const REFUSED_DEPTH: u8 = 14;
/// Refused: more than 16 scopes would be open.
pub const REFUSED_SCOPES: u8 = 20;
/// Refused: more than 32 selections would be open.
pub const REFUSED_SELECTIONS: u8 = 21;

impl Stores<Vec<u8>> {
    /// Stores of these lengths, and areas of the least lengths.
    pub fn new(definitions: usize, tuples: usize, reports: usize) -> Self {
        Self {
            definitions: vec![0; definitions],
            tuples: vec![0; tuples],
            reports: vec![0; reports],
            paths: vec![0; PATHS_MIN],
            scopes: vec![0; SCOPES_MIN],
            names: vec![0; NAMES_MIN],
            cells: vec![0; CELLS_MIN],
        }
    }
}

/// What the record call answers, and the run over a buffer.
#[derive(Debug, Clone, Copy, PartialEq, Eq, PartialOrd, Ord)]
pub enum Reply {
    /// The record is taken; of a buffer, each that is whole.
    Taken,
    /// It is turned back, by the number of documents 01 and 02: 1 to 5 and 10 because of what was handed in,
    /// 11 to 21 because of the session ([`REFUSED_DEPTH`], [`REFUSED_SCOPES`] and
    /// [`REFUSED_SELECTIONS`] say what ran out). It changed no number and no lent byte.
    Refused(u8),
}

/// A session: its numbers, and its stores and areas. They are its own, or borrowed where
/// [`Session::set_up`] is handed a [`Stores`] of slices.
///
/// ```
/// use host::identity::{Reply, Report, Session};
///
/// let mut session = Session::new(65_536, 65_536, 65_536);
/// // A key named k on `r`, of its attribute `id`; in `t` an element `r` with the key `a`.
/// for record in [
///     &b"ID\x0E\0\x01\x01\0k\0\x01\0r\x01\x03\0@id"[..],
///     b"ES\x08\0\0\0\x01\0t\x01\0\0",
///     b"ES\x0E\0\0\0\x01\0r\0\x01\x02\0id\x01\0a",
///     b"EE\x03\0\0\0\0",
/// ] {
///     assert_eq!(session.record(record), Reply::Taken);
/// }
/// assert_eq!(session.tuple_field(1, 0), b"a");
///
/// // Once more the same `r`, and a record that is refused: it is counted by nobody.
/// session.record(b"ES\x0E\0\0\0\x01\0r\0\x01\x02\0id\x01\0a");
/// assert_eq!(session.record(b"FI\0\0"), Reply::Refused(13));
/// session.record(b"EE\x03\0\0\0\0");
/// let duplicate = Report { event: 6, kind: 4, constraint: 0, field: 0, scope: 1, tuple: 1 };
/// assert_eq!(session.reports().collect::<Vec<_>>(), [duplicate]);
/// assert_eq!(session.numbers.events, 6);
/// ```
#[derive(Debug, Clone)]
pub struct Session<B = Vec<u8>> {
    pub numbers: Numbers,
    pub stores: Stores<B>,
}

impl Session {
    /// A session just set up that has its own stores, of these lengths.
    pub fn new(definitions: usize, tuples: usize, reports: usize) -> Self {
        Self::set_up(Stores::new(definitions, tuples, reports))
    }
}

/// Calls a door with what `record` and `run` share: the numbers, the bytes handed in, and what is lent.
macro_rules! hand_in {
    ($door:ident, $numbers:ident, $bytes:ident, $lent:ident $(, $more:expr)?) => {
        archive::$door(
            &mut $numbers.events,
            &mut $numbers.running,
            &mut $numbers.definitions,
            &mut $numbers.tuples,
            &mut $numbers.reports,
            $bytes.as_ptr(),
            $bytes.len(),
            $lent.definitions.as_mut_ptr(),
            $lent.definitions.len(),
            $lent.tuples.as_mut_ptr(),
            $lent.tuples.len(),
            $lent.reports.as_mut_ptr(),
            $lent.reports.len(),
            $lent.paths.as_mut_ptr(),
            $lent.paths.len(),
            $lent.scopes.as_mut_ptr(),
            $lent.scopes.len(),
            $lent.names.as_mut_ptr(),
            $lent.names.len(),
            $lent.cells.as_mut_ptr(),
            $lent.cells.len(),
            $($more)?
        )
    };
}

impl<B: AsRef<[u8]> + AsMut<[u8]>> Session<B> {
    /// A session just set up: five zeros. The stores may be borrowed:
    ///
    /// ```
    /// use host::identity::{CELLS_MIN, NAMES_MIN, PATHS_MIN, Reply, SCOPES_MIN, Session, Stores};
    ///
    /// let stores = Stores::<&mut [u8]> {
    ///     definitions: &mut [0; 18],
    ///     tuples: &mut [0; 13],
    ///     reports: &mut [],
    ///     paths: &mut [0; PATHS_MIN],
    ///     scopes: &mut [0; SCOPES_MIN],
    ///     names: &mut [0; NAMES_MIN],
    ///     cells: &mut [0; CELLS_MIN],
    /// };
    /// let mut session = Session::set_up(stores);
    /// let id = b"ID\x0E\0\x01\x01\0k\0\x01\0r\x01\x03\0@id";
    /// assert_eq!(session.record(id), Reply::Taken);
    /// // There is no byte left for a second one.
    /// assert_eq!(session.record(id), Reply::Refused(18));
    /// ```
    pub fn set_up(stores: Stores<B>) -> Self {
        Self {
            numbers: Numbers::default(),
            stores,
        }
    }

    /// Hands in one record, whole: ID, NS, ES, EE or FI. Any bytes may be handed in.
    ///
    /// What a record that is taken adds to a store stands behind its used bytes. Nothing is allocated.
    ///
    /// # Panics
    ///
    /// Where the archive answers a number that the header does not list. It is proved not to.
    pub fn record(&mut self, record: &[u8]) -> Reply {
        let (numbers, lent) = self.lent();
        // The lengths are those of the slices, and the function is proved to stay inside them.
        let number = unsafe { hand_in!(identity_record, numbers, record, lent) };
        Reply::of(number)
    }

    /// Hands in the whole records of a buffer one after another, until one is refused. The reply is that of
    /// the last one handed in, and [`Reply::Taken`] where there was none; with it come the bytes of the
    /// records that were taken.
    ///
    /// A record that is not whole at the end is not handed in: hand it in again with more behind it. A
    /// header that states over 16,384 bytes is handed in without its body, and is refused.
    ///
    /// Where all of a file is to be judged, this is the faster call: it tests once, and not at each record,
    /// whether the session is well formed.
    ///
    /// ```
    /// use host::identity::{Reply, Session};
    ///
    /// let mut session = Session::new(65_536, 65_536, 65_536);
    /// // Two starts, and of an end five bytes of seven: two records of 11 bytes are taken.
    /// let buffer = b"ES\x07\0\0\0\x01\0t\0\0ES\x07\0\0\0\x01\0r\0\0EE\x03\0\0";
    /// assert_eq!(session.run(buffer), (Reply::Taken, 22));
    /// // With two bytes more the end is whole. FI comes too early, and is the one refused.
    /// assert_eq!(session.run(b"EE\x03\0\0\0\0FI\0\0"), (Reply::Refused(13), 7));
    /// assert_eq!(session.numbers.events, 3);
    /// ```
    ///
    /// # Panics
    ///
    /// Where the archive answers a number that the header does not list. It is proved not to.
    pub fn run(&mut self, buffer: &[u8]) -> (Reply, usize) {
        let (numbers, lent) = self.lent();
        let mut taken = 0;
        // The lengths are those of the slices, and the function is proved to stay inside them.
        let number = unsafe { hand_in!(identity_run, numbers, buffer, lent, &mut taken) };
        (Reply::of(number), taken as usize)
    }

    /// The numbers, and the stores and areas as slices.
    fn lent(&mut self) -> (&mut Numbers, Stores<&mut [u8]>) {
        let stores = &mut self.stores;
        let lent = Stores {
            definitions: stores.definitions.as_mut(),
            tuples: stores.tuples.as_mut(),
            reports: stores.reports.as_mut(),
            paths: stores.paths.as_mut(),
            scopes: stores.scopes.as_mut(),
            names: stores.names.as_mut(),
            cells: stores.cells.as_mut(),
        };
        (&mut self.numbers, lent)
    }

    /// A field, from 0, of the TU with a number, from 1: the part of the tuple store that holds it. Empty
    /// where no TU or field has the number.
    pub fn tuple_field(&self, number: u32, field: u32) -> &[u8] {
        let tuples = self.stores.tuples.as_ref();
        &tuples[tuple_part(self.numbers.tuples, tuples, number, field)]
    }

    /// The reports so far, in the order of their events.
    pub fn reports(&self) -> impl Iterator<Item = Report> {
        let used = &self.stores.reports.as_ref()[..self.numbers.reports as usize];
        used.as_chunks().0.iter().map(Report::of)
    }
}

/// A report, by the parts of its RP record. What does not apply to its kind is 0. The kinds are those of
/// document 01, and 7: a key field stands on an element that is declared nillable (simple byte 2), `field`
/// the lowest.
#[derive(Debug, Clone, Copy, PartialEq, Eq)]
pub struct Report {
    pub event: u32,
    pub kind: u8,
    pub constraint: u8,
    pub field: u8,
    pub scope: u32,
    pub tuple: u32,
}

impl Report {
    /// Behind the mark stand kind, constraint, field index and a zero; then scope, event and tuple.
    fn of(record: &[u8; 18]) -> Self {
        let four = |at: usize| {
            let bytes = record[at..].first_chunk();
            u32::from_le_bytes(*bytes.expect("four bytes"))
        };
        Self {
            event: four(10),
            kind: record[2],
            constraint: record[3],
            field: record[4],
            scope: four(6),
            tuple: four(14),
        }
    }
}

/// The part of a tuple store, of which so many bytes are used, that holds a field of a TU. Where no TU or
/// field has the number, where the used bytes are no TUs, and where more bytes are used than there are, it is
/// the empty part at 0.
pub fn tuple_part(used: u64, tuples: &[u8], number: u32, field: u32) -> Range<usize> {
    let (mut start, mut size) = (0, 0);
    // The length is that of the slice, which is only read.
    unsafe {
        archive::identity_tuple_field(
            used,
            tuples.as_ptr(),
            tuples.len(),
            number,
            field,
            &mut start,
            &mut size,
        );
    }
    start as usize..(start + size) as usize
}

impl Reply {
    fn of(number: u32) -> Self {
        match number {
            0 => Self::Taken,
            1..=5 | 10..=21 => Self::Refused(number as u8),
            _ => panic!("the archive answered {number}"),
        }
    }

    /// The number that the archive answers: 0 for a record that is taken.
    pub fn number(self) -> u32 {
        match self {
            Self::Taken => 0,
            Self::Refused(number) => number.into(),
        }
    }
}

/// `taken`, `refused 13`.
impl fmt::Display for Reply {
    fn fmt(&self, out: &mut fmt::Formatter) -> fmt::Result {
        match self {
            Self::Taken => out.pad("taken"),
            Self::Refused(number) => out.pad(&format!("refused {number}")),
        }
    }
}
