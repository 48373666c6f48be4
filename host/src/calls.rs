//! What the path checker is fed: every short path, every short text of prefixes, and random calls
//! with damaged texts and lengths around the limits.

use std::ops::Range;

use crate::checker::Call;
use crate::paths::{self, Kind};
use crate::random::Random;
use crate::texts;

/// The letters of which every short path is made. Two are words, since axes have names. Of the two that are not ASCII
/// one stands in names, and one, the no-break space, in none.
#[rustfmt::skip]
pub const PATH_LETTERS: [&str; 15] = [
    ".", "/", "|", ":", "@", "*", "a", "-", "1", " ", "\t", "\u{A0}", "\u{E9}", "child", "attribute",
];

/// The letters of which every short text of prefixes is made. Tab is white space of paths, and parts no prefixes;
/// neither does U+A0.
pub const PREFIX_LETTERS: [&str; 6] = ["p", "x", "\u{E9}", " ", "\t", "\u{A0}"];

/// How many texts of exactly `length` letters there are.
pub fn count(letters: &[&str], length: u32) -> usize {
    letters.len().pow(length)
}

/// Those of them that have these numbers, from 0.
pub fn texts_of(
    letters: &[&str],
    length: u32,
    numbers: Range<usize>,
) -> impl Iterator<Item = String> {
    numbers.map(move |number| {
        let base = letters.len();
        (0..length)
            .map(|place| letters[number / base.pow(place) % base])
            .collect()
    })
}

/// The prefixes that a short path is checked with: none, and where it has a colon also some of the
/// names that its letters can make, with several spaces.
pub fn prefixes_for(path: &str) -> &'static [&'static str] {
    let all = &["", "a", "child  \u{E9}", " attribute a aa "];
    if path.contains(':') { all } else { &all[..1] }
}

/// Calls whose path has 255 or 256 bytes, or whose prefixes have 16,384 or 16,385.
pub fn at_the_limits() -> Vec<Call> {
    let name = |length: usize| "a".repeat(length);
    vec![
        Call::new(0, name(255), ""),
        Call::new(0, name(256), ""),
        Call::new(0, name(253) + "\u{E9}", ""),
        Call::new(0, name(254) + "\u{E9}", ""),
        Call::new(1, name(253) + "/@", ""),
        Call::new(1, name(254) + "/@", ""),
        Call::new(0, "p:a", ending_in_p(16_384)),
        Call::new(0, "p:a", ending_in_p(16_385)),
        Call::new(1, "q:a", ending_in_p(16_384)),
    ]
}

/// Prefixes of exactly so many bytes, of which the last piece is `p`.
pub fn ending_in_p(length: usize) -> Vec<u8> {
    match length {
        0 => Vec::new(),
        1 => b"p".to_vec(),
        _ => [&b"x".repeat(length - 2), &b" p"[..]].concat(),
    }
}

/// A random call. Most have a kind and texts that are taken, or nearly so.
pub fn call(random: &mut Random) -> Call {
    Call::new(kind(random), path(random), prefixes(random))
}

/// One in sixteen is no kind.
fn kind(random: &mut Random) -> u8 {
    match random.below(16) {
        0 => random.pick(&[2, 3, 4, 127, 128, 254, 255]),
        _ => random.below(2) as u8,
    }
}

/// A path of up to some 300 bytes.
pub fn path(random: &mut Random) -> Vec<u8> {
    let path = match random.below(10) {
        0 => texts::valid(random, 100).into_bytes(),
        1 => texts::raw(random, 300),
        2..=4 => long_path(random).into_bytes(),
        5 => {
            let path = paths::question(random).path;
            paths::with_other_space(random, &path).into_bytes()
        }
        _ => paths::question(random).path.into_bytes(),
    };
    match random.below(8) {
        0 => texts::damaged(random, &path),
        _ => path,
    }
}

/// Random paths with `|` or `/` between, or nothing; or paths of the grammar with `|` between, which
/// pass if their prefixes are declared. Some have a length around the limit.
fn long_path(random: &mut Random) -> String {
    let most = random.below(300);
    let grammatical = random.once_in(2);
    let mut path = String::new();
    while path.len() < most {
        if grammatical {
            path.push_str(&paths::grammatical(random, Kind::Field));
            path.push('|');
        } else {
            path.push_str(&paths::question(random).path);
            path.push_str(random.pick(&["|", "|", "|", "/", ""]));
        }
    }
    path.push('a');
    if random.once_in(3) {
        let length = 250 + random.below(10);
        padded(random, &mut path, length);
    }
    path
}

/// Cuts a text to a length, or lengthens it: mostly by name characters, else by white space.
fn padded(random: &mut Random, text: &mut String, length: usize) {
    while text.len() > length {
        text.pop();
    }
    let wide = random.pick(&["\u{E9}", "\u{3000}", "\u{10400}"]);
    while text.len() + wide.len() <= length && random.below(4) > 0 {
        text.push_str(wide);
    }
    let narrow = random.pick(&["a", "a", " "]);
    while text.len() < length {
        text.push_str(narrow);
    }
}

/// A text of prefixes of up to some 17,000 bytes.
fn prefixes(random: &mut Random) -> Vec<u8> {
    let text = match random.below(8) {
        0 => texts::valid(random, 20).into_bytes(),
        1 => words(random, 300).into_bytes(),
        2 => long_prefixes(random).into_bytes(),
        _ => paths::question(random).prefixes.into_bytes(),
    };
    match random.below(12) {
        0 => texts::damaged(random, &text),
        _ => text,
    }
}

/// Words with one space between, or several.
fn words(random: &mut Random, most: usize) -> String {
    let length = random.below(most);
    let mut text = String::new();
    while text.len() < length {
        text.push_str(random.pick(&[
            "r", "pp", "xp", "p\u{E9}", "p\t", "p\u{A0}", "xml", "p", "q",
        ]));
        text.push_str(random.pick(&[" ", " ", "  ", "   "]));
    }
    text
}

/// A text of prefixes around the limit, with `p` and `q` at its front, in its middle, as its last
/// bytes or nowhere.
fn long_prefixes(random: &mut Random) -> String {
    let length = 16_381 + random.below(7);
    let filler = random.pick(&["x", "pq", "\u{E9}", ""]);
    let known = random.pick(&[" p q", " p q", " p q", ""]);
    let before = random.pick(&[0, length / 2, length - known.len()]);
    let after = length - before - known.len();
    filled(filler, before) + known + &filled(filler, after)
}

/// Exactly so many bytes: the word again and again, with a space before each, then spaces.
fn filled(word: &str, length: usize) -> String {
    let mut text = format!(" {word}").repeat(length / (1 + word.len()));
    text.push_str(&" ".repeat(length - text.len()));
    text
}
