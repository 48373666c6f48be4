//! The open scopes ('The tree definition': each listed constraint opens one, and scopes are counted
//! from 1 as they are opened).

/// A record of the scope list: its constraint, its own number, the depth of its element.
#[derive(Debug, Clone, Copy, Default, PartialEq, Eq)]
pub struct Scope {
    pub constraint: u32,
    pub number: u32,
    pub depth: u32,
}

/// How many may be open (20), and so how many records the list has.
pub const SCOPES_MAX: usize = 16;

/// Scopes as they are handed to a door: twelve bytes each.
pub fn put(scopes: &[Scope]) -> Vec<u8> {
    let numbers = |scope: &Scope| [scope.constraint, scope.number, scope.depth];
    scopes
        .iter()
        .flat_map(numbers)
        .flat_map(u32::to_le_bytes)
        .collect()
}

/// Whether each is of a constraint that is defined, on an open element, with a number that was given;
/// whether numbers rise, and depths do not fall.
pub fn fit(scopes: &[Scope], constraints: usize, depth: u32, opened: u64) -> bool {
    let fits = |scope: &Scope| {
        (scope.constraint as usize) < constraints
            && (1..=depth).contains(&scope.depth)
            && (1..=opened).contains(&scope.number.into())
    };
    let rises = |pair: &[Scope]| pair[0].number < pair[1].number && pair[0].depth <= pair[1].depth;
    scopes.iter().all(fits) && scopes.windows(2).all(rises)
}
