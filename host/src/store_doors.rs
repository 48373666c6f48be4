//! The doors to a session's records, stores and areas as safe functions: each call hands over slices
//! with their own lengths, and a door is proved to stay inside them.
#![allow(unsafe_code)]

use std::ops::Range;

use crate::model::counts::{Counts, Lengths, Numbers};
use crate::model::definitions::Tally;
use crate::model::reports::Rp;
use crate::model::session::World;

/// The archive's functions as they are exported: a slice is a pointer and a length, a lent number
/// is a pointer, and a `bool` is one byte.
mod archive {
    unsafe extern "C" {
        pub fn store_walk_record(
            record: *const u8,
            record_len: usize,
            kind: *mut u8,
            flag: *mut u8,
            start1: *mut usize,
            size1: *mut usize,
            start2: *mut usize,
            size2: *mut usize,
            start3: *mut usize,
            size3: *mut usize,
            first: *mut usize,
            count: *mut usize,
        ) -> u8;
        pub fn store_refusal_number(place: u8) -> u8;
        pub fn store_state_at(area: *const u8, area_len: usize, at: usize) -> u8;
        pub fn store_key_at(
            area: *const u8,
            area_len: usize,
            at: usize,
            out: *mut u8,
            out_len: usize,
        ) -> usize;
        pub fn store_depth_at(area: *const u8, area_len: usize, at: usize) -> u32;
        pub fn store_scope_at(area: *const u8, area_len: usize, at: usize) -> u32;
        pub fn store_open_selection(
            area: *mut u8,
            area_len: usize,
            at: usize,
            depth: u32,
            scope: u32,
        );
        pub fn store_hit_cell(
            area: *mut u8,
            area_len: usize,
            at: usize,
            times: usize,
            simple: u8,
            key: *const u8,
            key_len: usize,
        );
        pub fn store_hit_selections(
            area: *mut u8,
            area_len: usize,
            n: usize,
            field: usize,
            counts: *const u8,
            counts_len: usize,
            simple: u8,
            key: *const u8,
            key_len: usize,
        );
        pub fn store_write_name(
            names: *mut u8,
            names_len: usize,
            depth: u32,
            space: *const u8,
            space_len: usize,
            qualified: *const u8,
            qualified_len: usize,
        );
        pub fn store_names_read(names: *const u8, names_len: usize, depth: u32) -> u8;
        pub fn store_pack(stage: u32, scopes: u32, selections: u32, opened: u64) -> u64;
        pub fn store_unpack(
            running: u64,
            stage: *mut u32,
            scopes: *mut u32,
            selections: *mut u32,
            opened: *mut u64,
        );
        pub fn store_depth_of(stage: u32) -> u32;
        pub fn store_counts_fit(
            events: u64,
            running: u64,
            definitions: u64,
            tuples: u64,
            reports: u64,
            definition_store: usize,
            tuple_store: usize,
            report_store: usize,
            names: usize,
            places: usize,
            cells: usize,
            paths: usize,
            stage: u32,
            scopes: u32,
            selections: u32,
            opened: u64,
        ) -> u8;
        pub fn store_append_report(
            store: *mut u8,
            store_len: usize,
            used: usize,
            kind: u8,
            constraint: u8,
            field: u8,
            scope: u32,
            event: u32,
            tuple: u32,
        ) -> usize;
        pub fn store_told(used: *const u8, used_len: usize, named: u32) -> u8;
        pub fn store_reports_read(used: *const u8, used_len: usize, constraints: usize) -> u8;
        pub fn store_append_bytes(
            store: *mut u8,
            store_len: usize,
            used: usize,
            bytes: *const u8,
            bytes_len: usize,
        ) -> usize;
        pub fn store_tuples_read(
            used: *const u8,
            used_len: usize,
            constraints: usize,
            opened: u64,
            most: u64,
        ) -> u8;
        pub fn store_field_place(
            used: *const u8,
            used_len: usize,
            number: u32,
            field: u32,
            start: *mut usize,
        ) -> usize;
        pub fn store_tuple_field(
            used: *const u8,
            used_len: usize,
            number: u32,
            field: u32,
            out: *mut u8,
            out_len: usize,
        ) -> usize;
        pub fn store_make_tuple(
            constraint: u8,
            scope: u32,
            cells: *const u8,
            cells_len: usize,
            fields: usize,
            out: *mut u8,
            out_len: usize,
        ) -> usize;
        pub fn store_find_tuple(
            used: *const u8,
            used_len: usize,
            tail: *const u8,
            tail_len: usize,
        ) -> usize;
        pub fn store_answered(
            used: *const u8,
            used_len: usize,
            named: u32,
            texts: *const u8,
            texts_len: usize,
        ) -> u8;
        pub fn store_read_definitions(
            used: *const u8,
            used_len: usize,
            constraints: *mut u32,
            fields: *mut u32,
            bindings: *mut u32,
        ) -> u8;
        pub fn store_judge_id(constraints: u32, fields: u32, bindings: u32) -> u8;
        pub fn store_judge_ns(
            used: *const u8,
            used_len: usize,
            constraints: u32,
            fields: u32,
            bindings: u32,
            target: u8,
            prefix: *const u8,
            prefix_len: usize,
        ) -> u8;
        pub fn store_own_of(
            used: *const u8,
            used_len: usize,
            number: u32,
            out: *mut u8,
            out_len: usize,
        ) -> usize;
        pub fn store_parts_of(
            own: *const u8,
            own_len: usize,
            kind: *mut u8,
            start1: *mut usize,
            size1: *mut usize,
            start2: *mut usize,
            size2: *mut usize,
            start3: *mut usize,
            size3: *mut usize,
            first: *mut usize,
            count: *mut usize,
        ) -> u8;
        pub fn store_field_of(
            own: *const u8,
            own_len: usize,
            first: usize,
            count: usize,
            i: usize,
            out: *mut u8,
            out_len: usize,
        ) -> usize;
        pub fn store_named(
            used: *const u8,
            used_len: usize,
            name: *const u8,
            name_len: usize,
        ) -> u32;
        pub fn store_answering(
            used: *const u8,
            used_len: usize,
            refer: *const u8,
            refer_len: usize,
        ) -> u32;
        pub fn store_constraint_count(used: *const u8, used_len: usize) -> u32;
        pub fn store_scopes_fit(
            scopes: *const u8,
            scopes_len: usize,
            n: usize,
            constraints: u32,
            depth: u32,
            opened: u64,
        ) -> u8;
        pub fn store_selections_read(
            cells: *const u8,
            cells_len: usize,
            count: usize,
            scopes: *const u8,
            scopes_len: usize,
            n: usize,
            fields: *const u8,
            fields_len: usize,
            depth: u32,
        ) -> u8;
        pub fn store_well_formed(
            events: u64,
            running: u64,
            definitions: u64,
            tuples: u64,
            reports: u64,
            scopes: *const u8,
            scopes_len: usize,
            paths: usize,
            definition_store: *const u8,
            definition_store_len: usize,
            tuple_store: *const u8,
            tuple_store_len: usize,
            report_store: *const u8,
            report_store_len: usize,
            names: *const u8,
            names_len: usize,
            cells: *const u8,
            cells_len: usize,
        ) -> u8;
    }
}

/// A door's yes or no. A byte other than 0 and 1 is no `bool`, so it comes as a number.
fn answer(byte: u8) -> bool {
    assert!(byte < 2, "a door answered {byte} where 0 or 1 was due");
    byte == 1
}

/// What the record walk answers: a record by places in it, or the refusal by its place in the order of
/// the tests.
#[derive(Debug, Clone, PartialEq, Eq)]
pub enum Walked {
    Refused(u8),
    Id {
        kind: u8,
        name: Range<usize>,
        flag: u8,
        refer: Range<usize>,
        selector: Range<usize>,
        first: usize,
        count: usize,
    },
    Ns {
        target: u8,
        prefix: Range<usize>,
        uri: Range<usize>,
    },
    Es {
        space: Range<usize>,
        name: Range<usize>,
        numbers: Range<usize>,
        first: usize,
        count: usize,
    },
    Ee {
        simple: u8,
        key: Range<usize>,
    },
    Fi,
}

/// The places of three texts.
fn ranges(starts: [usize; 3], sizes: [usize; 3]) -> [Range<usize>; 3] {
    [0, 1, 2].map(|place| starts[place]..starts[place] + sizes[place])
}

/// Walks a record.
pub fn walk_record(record: &[u8]) -> Walked {
    let (mut kind, mut flag) = (0, 0);
    let mut starts = [0; 3];
    let mut sizes = [0; 3];
    let (mut first, mut count) = (0, 0);
    let [start1, start2, start3] = &mut starts;
    let [size1, size2, size3] = &mut sizes;
    let sort = unsafe {
        archive::store_walk_record(
            record.as_ptr(),
            record.len(),
            &mut kind,
            &mut flag,
            start1,
            size1,
            start2,
            size2,
            start3,
            size3,
            &mut first,
            &mut count,
        )
    };
    let [a, b, c] = ranges(starts, sizes);
    match sort {
        0 => Walked::Refused(kind),
        1 => Walked::Id {
            kind,
            name: a,
            flag,
            refer: b,
            selector: c,
            first,
            count,
        },
        2 => Walked::Ns {
            target: kind,
            prefix: a,
            uri: b,
        },
        3 => Walked::Es {
            space: a,
            name: b,
            numbers: c,
            first,
            count,
        },
        4 => Walked::Ee {
            simple: kind,
            key: a,
        },
        5 => Walked::Fi,
        other => panic!("the door to the record walk answers {other}"),
    }
}

/// Document 01's number of the refusal with this place in the order of the tests.
pub fn refusal_number(place: u8) -> u8 {
    unsafe { archive::store_refusal_number(place) }
}

/// The state of the cell at a place.
pub fn state_at(area: &[u8], at: usize) -> u8 {
    unsafe { archive::store_state_at(area.as_ptr(), area.len(), at) }
}

/// Copies the key of the cell at a place to the front of `out`, where it fits, and answers its length.
pub fn key_at(area: &[u8], at: usize, out: &mut [u8]) -> usize {
    unsafe { archive::store_key_at(area.as_ptr(), area.len(), at, out.as_mut_ptr(), out.len()) }
}

/// The depth of the selection at a place.
pub fn depth_at(area: &[u8], at: usize) -> u32 {
    unsafe { archive::store_depth_at(area.as_ptr(), area.len(), at) }
}

/// The place of its scope among the open ones.
pub fn scope_at(area: &[u8], at: usize) -> u32 {
    unsafe { archive::store_scope_at(area.as_ptr(), area.len(), at) }
}

/// Writes the blank cells of a new selection at a place.
pub fn open_selection(area: &mut [u8], at: usize, depth: u32, scope: u32) {
    unsafe {
        archive::store_open_selection(area.as_mut_ptr(), area.len(), at, depth, scope);
    }
}

/// The cell at a place takes a hit so many times.
pub fn hit_cell(area: &mut [u8], at: usize, times: usize, simple: u8, key: &[u8]) {
    unsafe {
        archive::store_hit_cell(
            area.as_mut_ptr(),
            area.len(),
            at,
            times,
            simple,
            key.as_ptr(),
            key.len(),
        );
    }
}

/// Each of the first n selections takes a hit in the cell of a field, as often as its count says.
pub fn hit_selections(
    area: &mut [u8],
    n: usize,
    field: usize,
    counts: &[u8],
    simple: u8,
    key: &[u8],
) {
    unsafe {
        archive::store_hit_selections(
            area.as_mut_ptr(),
            area.len(),
            n,
            field,
            counts.as_ptr(),
            counts.len(),
            simple,
            key.as_ptr(),
            key.len(),
        );
    }
}

/// Writes the name of an element behind the first `depth` ones.
pub fn write_name(names: &mut [u8], depth: u32, space: &[u8], qualified: &[u8]) {
    unsafe {
        archive::store_write_name(
            names.as_mut_ptr(),
            names.len(),
            depth,
            space.as_ptr(),
            space.len(),
            qualified.as_ptr(),
            qualified.len(),
        );
    }
}

/// Whether the first `depth` places hold names.
pub fn names_read(names: &[u8], depth: u32) -> bool {
    answer(unsafe { archive::store_names_read(names.as_ptr(), names.len(), depth) })
}

/// The counts in one number.
pub fn pack(counts: Counts) -> u64 {
    let Counts {
        stage,
        scopes,
        selections,
        opened,
    } = counts;
    unsafe { archive::store_pack(stage, scopes, selections, opened) }
}

/// The counts that a number packs.
pub fn unpack(running: u64) -> Counts {
    let mut counts = Counts::default();
    unsafe {
        archive::store_unpack(
            running,
            &mut counts.stage,
            &mut counts.scopes,
            &mut counts.selections,
            &mut counts.opened,
        );
    }
    counts
}

/// How many elements are open at a stage.
pub fn depth_of(stage: u32) -> u32 {
    unsafe { archive::store_depth_of(stage) }
}

/// Whether numbers, lengths and counts are within their limits.
pub fn counts_fit(numbers: Numbers, lengths: Lengths, counts: Counts) -> bool {
    answer(unsafe {
        archive::store_counts_fit(
            numbers.events,
            numbers.running,
            numbers.definitions,
            numbers.tuples,
            numbers.reports,
            lengths.definitions,
            lengths.tuples,
            lengths.reports,
            lengths.names,
            lengths.scopes,
            lengths.cells,
            lengths.paths,
            counts.stage,
            counts.scopes,
            counts.selections,
            counts.opened,
        )
    })
}

/// Adds a report behind the used bytes of a store, and answers the new used length.
pub fn append_report(store: &mut [u8], used: usize, report: Rp) -> usize {
    unsafe {
        archive::store_append_report(
            store.as_mut_ptr(),
            store.len(),
            used,
            report.kind,
            report.constraint,
            report.field,
            report.scope,
            report.event,
            report.tuple,
        )
    }
}

/// Whether kind 6 was reported for a constraint of a set.
pub fn told(used: &[u8], named: u32) -> bool {
    answer(unsafe { archive::store_told(used.as_ptr(), used.len(), named) })
}

/// Whether the used bytes are reports and nothing else, each of one of so many constraints.
pub fn reports_read(used: &[u8], constraints: usize) -> bool {
    answer(unsafe { archive::store_reports_read(used.as_ptr(), used.len(), constraints) })
}

/// Adds bytes behind the used ones of a store, and answers the new used length.
pub fn append_bytes(store: &mut [u8], used: usize, bytes: &[u8]) -> usize {
    unsafe {
        archive::store_append_bytes(
            store.as_mut_ptr(),
            store.len(),
            used,
            bytes.as_ptr(),
            bytes.len(),
        )
    }
}

/// Whether the used bytes are tuples and nothing else, each of one of so many constraints and of a
/// scope that was opened, and not more than `most`.
pub fn tuples_read(used: &[u8], constraints: usize, opened: u64, most: u64) -> bool {
    answer(unsafe {
        archive::store_tuples_read(used.as_ptr(), used.len(), constraints, opened, most)
    })
}

/// The part of the used bytes that holds a field of a tuple.
pub fn field_place(used: &[u8], number: u32, field: u32) -> Range<usize> {
    let mut start = 0;
    let size =
        unsafe { archive::store_field_place(used.as_ptr(), used.len(), number, field, &mut start) };
    start..start + size
}

/// Copies a field of a tuple to the front of `out`, where it fits, and answers its length.
pub fn tuple_field(used: &[u8], number: u32, field: u32, out: &mut [u8]) -> usize {
    unsafe {
        archive::store_tuple_field(
            used.as_ptr(),
            used.len(),
            number,
            field,
            out.as_mut_ptr(),
            out.len(),
        )
    }
}

/// Copies the tuple of a finished selection to the front of `out`, where it fits, and answers its
/// length.
pub fn make_tuple(
    constraint: u8,
    scope: u32,
    cells: &[u8],
    fields: usize,
    out: &mut [u8],
) -> usize {
    unsafe {
        archive::store_make_tuple(
            constraint,
            scope,
            cells.as_ptr(),
            cells.len(),
            fields,
            out.as_mut_ptr(),
            out.len(),
        )
    }
}

/// The number of the first tuple that has this tail: scope, field count and texts.
pub fn find_tuple(used: &[u8], tail: &[u8]) -> usize {
    unsafe { archive::store_find_tuple(used.as_ptr(), used.len(), tail.as_ptr(), tail.len()) }
}

/// Whether a tuple of one of the constraints of a set has these texts.
pub fn answered(used: &[u8], named: u32, texts: &[u8]) -> bool {
    answer(unsafe {
        archive::store_answered(
            used.as_ptr(),
            used.len(),
            named,
            texts.as_ptr(),
            texts.len(),
        )
    })
}

/// What the definitions of a store come to, where they read.
pub fn read_definitions(used: &[u8]) -> Option<Tally> {
    let (mut constraints, mut fields, mut bindings) = (0, 0, 0);
    let is_read = answer(unsafe {
        archive::store_read_definitions(
            used.as_ptr(),
            used.len(),
            &mut constraints,
            &mut fields,
            &mut bindings,
        )
    });
    is_read.then_some(Tally {
        constraints: constraints as usize,
        fields: fields as usize,
        bindings: bindings as usize,
    })
}

/// The number of the refusal of an ID more; 0 where it is taken.
pub fn judge_id(tally: Tally) -> u8 {
    unsafe {
        archive::store_judge_id(
            tally.constraints as u32,
            tally.fields as u32,
            tally.bindings as u32,
        )
    }
}

/// The number of the refusal of an NS more; 0 where it is taken.
pub fn judge_ns(used: &[u8], tally: Tally, target: u8, prefix: &[u8]) -> u8 {
    unsafe {
        archive::store_judge_ns(
            used.as_ptr(),
            used.len(),
            tally.constraints as u32,
            tally.fields as u32,
            tally.bindings as u32,
            target,
            prefix.as_ptr(),
            prefix.len(),
        )
    }
}

/// Copies the records of the constraint with this number to the front of `out`, where they fit, and
/// answers their length.
pub fn own_of(used: &[u8], number: u32, out: &mut [u8]) -> usize {
    unsafe {
        archive::store_own_of(
            used.as_ptr(),
            used.len(),
            number,
            out.as_mut_ptr(),
            out.len(),
        )
    }
}

/// The parts of an ID by their places in the bytes that it stands at the front of.
#[derive(Debug, Clone, PartialEq, Eq)]
pub struct Parts {
    pub kind: u8,
    pub name: Range<usize>,
    pub refer: Option<Range<usize>>,
    pub selector: Range<usize>,
    pub first: usize,
    pub count: usize,
}

/// The parts of the ID at the front.
pub fn parts_of(own: &[u8]) -> Parts {
    let mut kind = 0;
    let mut starts = [0; 3];
    let mut sizes = [0; 3];
    let (mut first, mut count) = (0, 0);
    let [start1, start2, start3] = &mut starts;
    let [size1, size2, size3] = &mut sizes;
    let referred = answer(unsafe {
        archive::store_parts_of(
            own.as_ptr(),
            own.len(),
            &mut kind,
            start1,
            size1,
            start2,
            size2,
            start3,
            size3,
            &mut first,
            &mut count,
        )
    });
    let [name, refer, selector] = ranges(starts, sizes);
    Parts {
        kind,
        name,
        refer: referred.then_some(refer),
        selector,
        first,
        count,
    }
}

/// Copies field i of so many, which stand from a place on, to the front of `out`, where it fits, and
/// answers its length.
pub fn field_of(own: &[u8], first: usize, count: usize, i: usize, out: &mut [u8]) -> usize {
    unsafe {
        archive::store_field_of(
            own.as_ptr(),
            own.len(),
            first,
            count,
            i,
            out.as_mut_ptr(),
            out.len(),
        )
    }
}

/// The set of the constraints that bear a name.
pub fn named(used: &[u8], name: &[u8]) -> u32 {
    unsafe { archive::store_named(used.as_ptr(), used.len(), name.as_ptr(), name.len()) }
}

/// The set of the constraints that answer a keyref with this refer.
pub fn answering(used: &[u8], refer: &[u8]) -> u32 {
    unsafe { archive::store_answering(used.as_ptr(), used.len(), refer.as_ptr(), refer.len()) }
}

/// How many constraints there are.
pub fn constraint_count(used: &[u8]) -> u32 {
    unsafe { archive::store_constraint_count(used.as_ptr(), used.len()) }
}

/// Whether the first n scopes, of twelve bytes each, fit.
pub fn scopes_fit(scopes: &[u8], n: usize, constraints: u32, depth: u32, opened: u64) -> bool {
    answer(unsafe {
        archive::store_scopes_fit(scopes.as_ptr(), scopes.len(), n, constraints, depth, opened)
    })
}

/// Whether the first `count` selections read, beside the first n scopes, of twelve bytes each, and how
/// many fields the constraint of each has.
pub fn selections_read(
    cells: &[u8],
    count: usize,
    scopes: &[u8],
    n: usize,
    fields: &[u8],
    depth: u32,
) -> bool {
    answer(unsafe {
        archive::store_selections_read(
            cells.as_ptr(),
            cells.len(),
            count,
            scopes.as_ptr(),
            scopes.len(),
            n,
            fields.as_ptr(),
            fields.len(),
            depth,
        )
    })
}

/// What the whole test is lent. The scopes are sixteen, of twelve bytes each; of the path area the
/// length counts.
#[derive(Clone, Copy)]
pub struct Lent<'a> {
    pub numbers: Numbers,
    pub scopes: &'a [u8],
    pub paths: usize,
    pub definitions: &'a [u8],
    pub tuples: &'a [u8],
    pub reports: &'a [u8],
    pub names: &'a [u8],
    pub cells: &'a [u8],
}

impl<'a> Lent<'a> {
    /// What is lent of a world, with its scopes as bytes.
    pub fn of(world: &'a World, scopes: &'a [u8]) -> Self {
        Self {
            numbers: world.numbers,
            scopes,
            paths: world.path_area,
            definitions: &world.definition_store,
            tuples: &world.tuple_store,
            reports: &world.report_store,
            names: &world.names,
            cells: &world.cells,
        }
    }
}

/// Whether the session is well formed.
pub fn well_formed(lent: Lent) -> bool {
    answer(unsafe {
        archive::store_well_formed(
            lent.numbers.events,
            lent.numbers.running,
            lent.numbers.definitions,
            lent.numbers.tuples,
            lent.numbers.reports,
            lent.scopes.as_ptr(),
            lent.scopes.len(),
            lent.paths,
            lent.definitions.as_ptr(),
            lent.definitions.len(),
            lent.tuples.as_ptr(),
            lent.tuples.len(),
            lent.reports.as_ptr(),
            lent.reports.len(),
            lent.names.as_ptr(),
            lent.names.len(),
            lent.cells.as_ptr(),
            lent.cells.len(),
        )
    })
}
