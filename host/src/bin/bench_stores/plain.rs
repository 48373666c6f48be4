//! The calls that are measured in plain Rust: loops over the same bytes, which stop where something is
//! wrong and allocate nothing.

use std::str::from_utf8;

use host::model::scopes::Scope;
use host::model::session::World;

// ---- tuples

/// A record by its stated length, and what is behind it.
fn split_record(bytes: &[u8]) -> Option<(&[u8], &[u8])> {
    let size = u16::from_le_bytes([*bytes.get(2)?, *bytes.get(3)?]);
    bytes.split_at_checked(4 + usize::from(size))
}

pub fn find_tuple(used: &[u8], tail: &[u8]) -> usize {
    let mut rest = used;
    let mut number = 0;
    while let Some((record, behind)) = split_record(rest) {
        number += 1;
        if record.get(5..).unwrap_or_default() == tail {
            return number;
        }
        rest = behind;
    }
    0
}

pub fn answered(used: &[u8], named: u32, texts: &[u8]) -> bool {
    let mut rest = used;
    while let Some((record, behind)) = split_record(rest) {
        let constraint = record.get(4).copied().unwrap_or(0);
        if is_in(named, constraint) && record.get(9..).unwrap_or_default() == texts {
            return true;
        }
        rest = behind;
    }
    false
}

fn is_in(set: u32, constraint: u8) -> bool {
    constraint < 32 && set >> constraint & 1 == 1
}

pub fn tuples_read(used: &[u8], constraints: usize, opened: u64, most: u64) -> bool {
    let mut rest = used;
    let mut count = 0;
    while !rest.is_empty() {
        let Some((record, behind)) = split_record(rest) else {
            return false;
        };
        if !is_tuple(record, constraints, opened) {
            return false;
        }
        count += 1;
        rest = behind;
    }
    count <= most
}

fn is_tuple(record: &[u8], constraints: usize, opened: u64) -> bool {
    let [b'T', b'U', _, _, constraint, a, b, c, d, fields, texts @ ..] = record else {
        return false;
    };
    usize::from(*constraint) < constraints
        && u64::from(u32::from_le_bytes([*a, *b, *c, *d])) <= opened
        && are_texts(texts, *fields)
}

/// Whether bytes are so many texts and nothing else.
fn are_texts(bytes: &[u8], count: u8) -> bool {
    let mut rest = bytes;
    for _ in 0..count {
        let Some((size, text)) = rest.split_first_chunk() else {
            return false;
        };
        let Some(behind) = text.get(usize::from(u16::from_le_bytes(*size))..) else {
            return false;
        };
        rest = behind;
    }
    rest.is_empty()
}

// ---- reports

pub fn reports_read(used: &[u8], constraints: usize) -> bool {
    let (reports, rest) = used.as_chunks::<18>();
    let is_report = |report: &[u8; 18]| {
        report.starts_with(b"RP") && report[5] == 0 && usize::from(report[3]) < constraints
    };
    rest.is_empty() && reports.iter().all(is_report)
}

pub fn told(used: &[u8], named: u32) -> bool {
    let (reports, _) = used.as_chunks::<18>();
    reports
        .iter()
        .take_while(|report| report.starts_with(b"RP") && report[5] == 0)
        .any(|report| report[2] == 6 && is_in(named, report[3]))
}

// ---- the whole test

/// Whether a world is well formed.
pub fn well_formed(world: &World) -> bool {
    let numbers = world.numbers;
    let stage = numbers.running % 128;
    let scopes = (numbers.running / 128 % 32) as usize;
    let selections = (numbers.running / 4096 % 64) as usize;
    let opened = numbers.running / 262_144;
    let depth = match stage {
        0 | 66 => 0,
        _ => stage as u32 - 1,
    };
    if !lengths_fit(world)
        || (stage == 0 && (numbers.running, numbers.tuples, numbers.reports) != (0, 0, 0))
        || numbers.events > 1_000_000
        || stage > 66
        || scopes > 16
        || selections > 32
        || opened > 8 * numbers.events
    {
        return false;
    }
    let Some(definitions) = Definitions::read(used(&world.definition_store, numbers.definitions))
    else {
        return false;
    };
    let scopes = &world.scopes[..scopes];
    let constraints = definitions.constraints;
    names_read(&world.names, depth)
        && scopes_fit(scopes, constraints, depth, opened)
        && selections_read(&world.cells, selections, scopes, &definitions, depth)
        && tuples_read(
            used(&world.tuple_store, numbers.tuples),
            constraints,
            opened,
            32 * numbers.events,
        )
        && reports_read(used(&world.report_store, numbers.reports), constraints)
}

fn used(store: &[u8], length: u64) -> &[u8] {
    &store[..length as usize]
}

fn lengths_fit(world: &World) -> bool {
    let numbers = world.numbers;
    world.path_area >= 1_024
        && world.scopes.len() >= 16
        && world.names.len() >= 32_896
        && world.cells.len() >= 16_384
        && numbers.definitions <= world.definition_store.len() as u64
        && numbers.tuples <= world.tuple_store.len() as u64
        && numbers.reports <= world.report_store.len() as u64
}

fn names_read(names: &[u8], depth: u32) -> bool {
    let places = names.chunks_exact(514).take(depth as usize);
    let halves = places.flat_map(|place| place.chunks_exact(257));
    halves
        .map(|half| u16::from_le_bytes([half[0], half[1]]))
        .all(|size| size <= 255)
}

fn scopes_fit(scopes: &[Scope], constraints: usize, depth: u32, opened: u64) -> bool {
    let (mut number, mut least) = (0, 1);
    for scope in scopes {
        if scope.constraint as usize >= constraints
            || scope.depth > depth
            || u64::from(scope.number) > opened
            || scope.number <= number
            || scope.depth < least
        {
            return false;
        }
        (number, least) = (scope.number, scope.depth);
    }
    true
}

fn selections_read(
    cells: &[u8],
    count: usize,
    scopes: &[Scope],
    definitions: &Definitions,
    depth: u32,
) -> bool {
    let mut last = (0, 0);
    for selection in cells.chunks_exact(512).take(count) {
        let more = |cell: usize| selection[128 * cell] / 8;
        let deep = u32::from(more(0)) + 32 * u32::from(more(1));
        let Some(scope) = scopes.get(usize::from(more(2))) else {
            return false;
        };
        let next = (deep, scope.number);
        if next <= last || deep > depth || deep < scope.depth || more(3) != 0 {
            return false;
        }
        let fields = definitions.fields[scope.constraint as usize];
        let mut cells = selection.chunks_exact(128).enumerate();
        if !cells.all(|(field, cell)| is_cell(cell, field < usize::from(fields))) {
            return false;
        }
        last = next;
    }
    true
}

/// Zeros behind the key of a Set cell, marked or not, and behind the state of another; Unset where there is no field.
fn is_cell(cell: &[u8], has_field: bool) -> bool {
    let key = match cell[0] % 8 {
        1 | 4 if has_field => usize::from(cell[1]),
        0 => 0,
        2 | 3 if has_field => 0,
        _ => return false,
    };
    usize::from(cell[1]) == key && key <= 126 && cell[2 + key..].iter().all(|&byte| byte == 0)
}

// ---- definitions

pub fn definitions_read(used: &[u8]) -> bool {
    Definitions::read(used).is_some()
}

/// How many constraints there are, the number of fields of each, and what is bound schema-wide.
struct Definitions<'a> {
    constraints: usize,
    fields: [u8; 32],
    bindings: usize,
    schema: [&'a [u8]; 64],
    schema_count: usize,
}

impl<'a> Definitions<'a> {
    fn read(used: &'a [u8]) -> Option<Self> {
        let mut definitions = Self {
            constraints: 0,
            fields: [0; 32],
            bindings: 0,
            schema: [&[]; 64],
            schema_count: 0,
        };
        let mut rest = used;
        while !rest.is_empty() {
            let (record, behind) = split_record(rest)?;
            if record.len() > 4 + 16_384 {
                return None;
            }
            let body = &record[4..];
            match &record[..2] {
                b"ID" => definitions.add_id(body)?,
                b"NS" => definitions.add_ns(body)?,
                _ => return None,
            }
            rest = behind;
        }
        Some(definitions)
    }

    fn add_id(&mut self, body: &[u8]) -> Option<()> {
        let (&kind, mut rest) = body.split_first()?;
        take_text(&mut rest)?;
        match *rest.split_off_first()? {
            0 => {}
            1 => drop(take_text(&mut rest)?),
            _ => return None,
        }
        take_path(&mut rest)?;
        let fields = *rest.split_off_first()?;
        for _ in 0..fields {
            take_path(&mut rest)?;
        }
        let fits = rest.is_empty() && kind <= 2 && (1..=4).contains(&fields);
        *self.fields.get_mut(self.constraints)? = fields;
        self.constraints += 1;
        fits.then_some(())
    }

    fn add_ns(&mut self, body: &'a [u8]) -> Option<()> {
        let (&target, mut rest) = body.split_first()?;
        let prefix = take_text(&mut rest)?;
        take_text(&mut rest)?;
        if !rest.is_empty() || target > 5 || self.bindings == 64 {
            return None;
        }
        self.bindings += 1;
        if target > 0 {
            let latest = self.fields[self.constraints.checked_sub(1)?];
            return (target < 2 + latest).then_some(());
        }
        if self.schema[..self.schema_count].contains(&prefix) {
            return None;
        }
        self.schema[self.schema_count] = prefix;
        self.schema_count += 1;
        Some(())
    }
}

/// A text of at most 255 bytes of UTF-8.
fn take_text<'a>(rest: &mut &'a [u8]) -> Option<&'a [u8]> {
    let size = u16::from_le_bytes(*rest.split_off(..2)?.as_array()?);
    let text = rest.split_off(..usize::from(size))?;
    (size <= 255 && from_utf8(text).is_ok()).then_some(text)
}

/// A path's text, with at most seven `|` and sixteen `/`.
fn take_path(rest: &mut &[u8]) -> Option<()> {
    let path = take_text(rest)?;
    let count = |letter| path.iter().filter(|&&byte| byte == letter).count();
    (count(b'|') <= 7 && count(b'/') <= 16).then_some(())
}
