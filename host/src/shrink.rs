//! A difference is made small before it is shown.

use std::iter;
use std::ops::Range;

/// What still differs, and no longer does when it is made smaller in any one way.
pub fn shrunk<T>(
    mut found: T,
    smaller: fn(&T) -> Box<dyn Iterator<Item = T> + '_>,
    differs: impl Fn(&T) -> bool,
) -> T {
    loop {
        let next = smaller(&found).find(&differs);
        match next {
            Some(smaller) => found = smaller,
            None => return found,
        }
    }
}

/// The text without all of it, without a stretch of half its length, of a quarter, .., of one byte.
pub fn shorter(text: &[u8]) -> impl Iterator<Item = Vec<u8>> {
    stretches(text.len()).map(|gone| [&text[..gone.start], &text[gone.end..]].concat())
}

/// Stretches of so many: all of them, each half, each quarter, .., each one.
pub fn stretches(length: usize) -> impl Iterator<Item = Range<usize>> {
    let halves = |size: &usize| Some(size / 2).filter(|&half| half > 0);
    let sizes = iter::successors(Some(length).filter(|&length| length > 0), halves);
    sizes.flat_map(move |size| {
        let stretch = move |part: usize| part * size..((part + 1) * size).min(length);
        (0..length.div_ceil(size)).map(stretch)
    })
}

/// A text with its length, and escaped, so that white space and damaged bytes show; of a long one
/// the two ends.
pub fn shown(text: &[u8]) -> String {
    let escaped = match text.len() {
        0..=300 => text.escape_ascii().to_string(),
        length => format!(
            "{} .. {}",
            text[..60].escape_ascii(),
            text[length - 60..].escape_ascii()
        ),
    };
    format!("'{escaped}' ({} bytes)", text.len())
}
