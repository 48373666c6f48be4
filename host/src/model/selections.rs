//! Open selections: an element that a scope has selected, with a cell for each field ('The tree
//! definition'). In the area each has four cells, whatever the number of its fields. Beside the states
//! of the first three stand the depth's rest and quotient by 32, and the place of the scope among the
//! open ones.

use std::iter;

use super::bytes::{part, write};
use super::cells::{CELL, Cell, Hit, hit_at, more_at};
use super::scopes::Scope;

/// A selection: the place of its scope among the open ones, the depth of its element, its cells.
#[derive(Debug, Clone, PartialEq, Eq)]
pub struct Selection {
    pub scope: usize,
    pub depth: u32,
    pub cells: Vec<Cell>,
}

/// 21: how many may be open.
pub const SELECTIONS_MAX: usize = 32;
/// Four cells.
pub const SELECTION: usize = 4 * CELL;

impl Selection {
    pub fn new(scope: usize, depth: u32, cells: &[Cell]) -> Self {
        let cells = cells.into();
        Self {
            scope,
            depth,
            cells,
        }
    }

    /// Its bytes: a field that the constraint does not have is Unset.
    pub fn bytes(&self) -> Vec<u8> {
        let more = [
            (self.depth % 32) as u8,
            (self.depth / 32) as u8,
            self.scope as u8,
            0,
        ];
        let mut cells = self.cells.iter();
        let bytes = more.map(|more| cells.next().unwrap_or(&Cell::Unset).bytes(more));
        bytes.concat()
    }

    /// The selection that 512 bytes are: within its scope, and exactly as it is written. `fields` has
    /// the number of fields of each open scope; one that is missing is 0.
    fn read(bytes: &[u8], scopes: &[Scope], fields: &[u8]) -> Option<Self> {
        let depth = depth_at(bytes, 0);
        let place = scope_at(bytes, 0) as usize;
        let scope = scopes.get(place)?;
        let cells: Option<Vec<Cell>> = bytes.chunks(CELL).map(Cell::read).collect();
        let mut cells = cells?;
        cells.truncate(fields.get(place).copied().unwrap_or(0).into());
        let selection = Self {
            scope: place,
            depth,
            cells,
        };
        (scope.depth <= depth && selection.bytes() == bytes).then_some(selection)
    }
}

/// The selections in the first places of the area. Each is of an open element, and deeper than the one
/// before it or, on the same element, of a later scope.
pub fn read(
    area: &[u8],
    count: usize,
    scopes: &[Scope],
    fields: &[u8],
    depth: u32,
) -> Option<Vec<Selection>> {
    let place = |number| part(area, SELECTION * number, SELECTION);
    let selections: Option<Vec<Selection>> = (0..count)
        .map(|number| Selection::read(place(number), scopes, fields))
        .collect();
    let selections = selections?;
    let order = selections
        .iter()
        .map(|it| (it.depth, scopes[it.scope].number));
    let climbs = iter::once((0, 0)).chain(order).is_sorted_by(|a, b| a < b);
    let open = selections.iter().all(|it| it.depth <= depth);
    (climbs && open).then_some(selections)
}

// ---- selections at places of an area of any bytes

/// The depth of the selection at a place. A byte that is not there counts as 0.
pub fn depth_at(area: &[u8], at: usize) -> u32 {
    let bytes = part(area, at, SELECTION);
    u32::from(more_at(bytes, 0)) + 32 * u32::from(more_at(bytes, CELL))
}

/// The place of its scope among the open ones.
pub fn scope_at(area: &[u8], at: usize) -> u32 {
    more_at(part(area, at, SELECTION), 2 * CELL).into()
}

/// Writes the blank cells of a new selection at a place. A depth is below 1,024 and a place below 32;
/// of others the rest counts.
pub fn open_at(area: &mut [u8], at: usize, depth: u32, scope: u32) {
    let blank = Selection {
        scope: scope as usize % 32,
        depth: depth % 1024,
        cells: Vec::new(),
    };
    write(area, at, &blank.bytes());
}

/// Each selection takes a hit in the cell of a field, as often as its count says.
pub fn hit_each(area: &mut [u8], counts: &[u8], field: usize, hit: &Hit) {
    for (selection, &times) in area.chunks_mut(SELECTION).zip(counts) {
        hit_at(selection, field.saturating_mul(CELL), times.into(), hit);
    }
}
