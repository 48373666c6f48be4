//! Field cells: what a field of a selected element has met so far ('The tree definition', hits and
//! cells), and their 128 bytes ('From Rust's forms to Rattle's').

use super::bytes::{Text, pad, part, write};
use super::records::KEY_MAX;

/// No hit is Unset; one is Set, or NotSimple on an element that has no simple value; more are
/// Multiple. A Set cell remembers whether its element is declared nillable.
#[derive(Debug, Clone, PartialEq, Eq)]
pub enum Cell {
    Unset,
    Set(Text),
    SetNillable(Text),
    NotSimple,
    Multiple,
}

/// A hit: of a node with this key, of an element declared nillable with this key, or of an element that
/// has no simple value.
#[derive(Debug, Clone, PartialEq, Eq)]
pub enum Hit {
    Simple(Text),
    Nillable(Text),
    Complex,
}

/// A cell in bytes.
pub const CELL: usize = 128;

impl Hit {
    /// Of an element that ends with this simple byte. A key of over 126 bytes is refused before; of one
    /// that is handed in all the same the first 126 count.
    pub fn new(simple: u8, key: &[u8]) -> Self {
        let key = part(key, 0, KEY_MAX).into();
        match simple {
            0 => Self::Complex,
            2 => Self::Nillable(key),
            _ => Self::Simple(key),
        }
    }
}

impl Cell {
    /// The cell after a hit more.
    pub fn hit(&self, hit: &Hit) -> Self {
        match (self, hit) {
            (Self::Unset, Hit::Simple(key)) => Self::Set(key.clone()),
            (Self::Unset, Hit::Nillable(key)) => Self::SetNillable(key.clone()),
            (Self::Unset, Hit::Complex) => Self::NotSimple,
            _ => Self::Multiple,
        }
    }

    /// The number of its state.
    pub fn state(&self) -> u8 {
        match self {
            Self::Unset => 0,
            Self::Set(_) => 1,
            Self::NotSimple => 2,
            Self::Multiple => 3,
            Self::SetNillable(_) => 4,
        }
    }

    /// Its key; a cell that is not Set has none.
    pub fn key(&self) -> &[u8] {
        match self {
            Self::Set(key) | Self::SetNillable(key) => key,
            _ => &[],
        }
    }

    /// State and eight times a small number, length of the key, key, zeros.
    pub fn bytes(&self, more: u8) -> Vec<u8> {
        let head = [self.state() + 8 * more, self.key().len() as u8];
        pad([&head, self.key()].concat(), CELL)
    }

    /// The cell that 128 bytes are; what stands behind a key is not looked at.
    pub fn read(bytes: &[u8]) -> Option<Self> {
        let (&[head, size], keys) = bytes.split_first_chunk()?;
        let key = keys.get(..size.into())?;
        if bytes.len() != CELL {
            return None;
        }
        match head % 8 {
            0 => Some(Self::Unset),
            1 => Some(Self::Set(key.into())),
            2 => Some(Self::NotSimple),
            3 => Some(Self::Multiple),
            4 => Some(Self::SetNillable(key.into())),
            _ => None,
        }
    }
}

// ---- cells at places of an area of any bytes

/// The cell at a place; Unset where none stands there.
pub fn cell_at(area: &[u8], at: usize) -> Cell {
    Cell::read(part(area, at, CELL)).unwrap_or(Cell::Unset)
}

/// The small number beside the state of the cell at a place.
pub fn more_at(area: &[u8], at: usize) -> u8 {
    area.get(at).copied().unwrap_or(0) / 8
}

/// The cell at a place takes a hit so many times. Without a hit, and where it is Multiple already, its
/// bytes stay as they are; else they are written whole.
pub fn hit_at(area: &mut [u8], at: usize, times: usize, hit: &Hit) {
    let mut cell = cell_at(area, at);
    if times == 0 || cell == Cell::Multiple {
        return;
    }
    // A third hit changes nothing.
    for _ in 0..times.min(3) {
        cell = cell.hit(hit);
    }
    let bytes = cell.bytes(more_at(area, at));
    write(area, at, &bytes);
}
