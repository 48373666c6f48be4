//! What the original's session shows of itself, in words of the host.

use std::collections::BTreeSet;

use crate::definitions::Constraint;
use crate::model::cells;

/// What a field of a selected element has met so far.
#[derive(Debug, Clone, Copy, PartialEq, Eq)]
pub enum Cell {
    Unset,
    Set,
    NotSimple,
    Multiple,
}

/// An open scope: its constraint, the depth of its element, what it has selected, each with its depth and
/// its cells, and the tuples that it has seen.
#[derive(Debug, Clone, PartialEq, Eq)]
pub struct Open {
    pub constraint: Constraint,
    pub depth: usize,
    pub selected: Vec<(usize, Vec<cells::Cell>)>,
    pub seen: Tuples,
}

/// Tuples by their keys, in no order.
pub type Tuples = BTreeSet<Vec<String>>;
