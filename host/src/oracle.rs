//! The original as an oracle. Here its path checker: which of the reasons X1 to X14 it gives a path.
//! Below its reader and its session. No path that it is asked about holds other white space than XML's.

mod open;
#[cfg(oracle)]
pub mod reader;
#[cfg(oracle)]
pub mod session;

#[cfg(not(oracle))]
mod absent;
#[cfg(not(oracle))]
pub use absent::{reader, session};

use std::str::from_utf8;

use crate::paths::{Kind, Question};
use crate::spaces;

/// The fixed parts of each reason's message, X1 first. Between them stand a name or the path, which
/// may hold any words; so a message is known by how it begins and ends. The reasons of the path
/// rules (X6 to X14) have ` in '..'` appended with the alternative; X3 to X5 have not.
const MESSAGES: [&[&str]; 14] = [
    &["xpath must not be empty"],
    &["unexpected ':' in '", "'"],
    &["'", "' is not a valid NCName"],
    &["dangling ':' after '", "'"],
    &["unexpected character '", "'"],
    &["empty path alternative in '", "'"],
    &["'.//' must be followed by a step in '", "'"],
    &["attribute test is not allowed in a selector in '", "'"],
    &["invalid axis in '", "'"],
    &["axis '", "::' is not allowed in '", "'"],
    &["undeclared namespace prefix '", "' in '", "'"],
    &["invalid step in '", "'"],
    &["trailing '/' in '", "'"],
    &["invalid step separator in '", "'"],
];

/// The k of the reason Xk that has this message. A message of no reason, or of two, is a fault of
/// the table above.
pub fn reason_of(message: &str) -> u8 {
    let mut reasons = (1..)
        .zip(MESSAGES)
        .filter(|(_, parts)| fits(message, parts));
    match (reasons.next(), reasons.next()) {
        (Some((reason, _)), None) => reason,
        (None, _) => panic!("no reason has the message: {message}"),
        (Some(_), Some(_)) => panic!("two reasons have the message: {message}"),
    }
}

fn fits(message: &str, parts: &[&str]) -> bool {
    let [begin, middle @ .., end] = parts else {
        return parts == [message];
    };
    let Some(mut rest) = message.strip_prefix(begin) else {
        return false;
    };
    for part in middle {
        let Some((_, after)) = rest.split_once(part) else {
            return false;
        };
        rest = after;
    }
    rest.ends_with(end)
}

/// Other white space than XML's is an ordinary character here and white space to the original, which is to be asked of
/// no such path.
#[track_caller]
fn assert_comparable(path: &str) {
    assert!(
        !spaces::holds_other(path),
        "the original is asked of {path:?}"
    );
}

/// What the original says of a path. The declared prefixes are one text, split at each space; `xml`
/// is declared by the original itself.
#[cfg(oracle)]
#[track_caller]
fn validate(kind: Kind, path: &str, prefixes: &str) -> Result<(), String> {
    use crate::schema::xsd::identity_xpath::{IdentityXPathKind, validate_identity_xpath};
    assert_comparable(path);
    let kind = match kind {
        Kind::Selector => IdentityXPathKind::Selector,
        Kind::Field => IdentityXPathKind::Field,
    };
    let declared = |prefix: &str| prefixes.split(' ').any(|piece| piece == prefix);
    validate_identity_xpath(path, kind, declared)
}

/// Without the original there is no answer. The tests that ask for one are skipped.
#[cfg(not(oracle))]
fn validate(_: Kind, _: &str, _: &str) -> Result<(), String> {
    panic!("the original Rust is not there")
}

/// The k of the reason Xk that the original gives a path, or none where the path passes.
pub fn reason(kind: Kind, path: &str, prefixes: &str) -> Option<u8> {
    validate(kind, path, prefixes)
        .err()
        .map(|message| reason_of(&message))
}

/// Whether bytes pass: what a careful caller of the original writes who was handed bytes, and what
/// the benchmark measures.
pub fn passes(kind: Kind, path: &[u8], prefixes: &[u8]) -> bool {
    match (from_utf8(path), from_utf8(prefixes)) {
        (Ok(path), Ok(prefixes)) => validate(kind, path, prefixes).is_ok(),
        _ => false,
    }
}

/// The same of a question.
pub fn answer(question: &Question) -> Option<u8> {
    reason(question.kind, &question.path, &question.prefixes)
}
