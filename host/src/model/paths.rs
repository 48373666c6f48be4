//! The reader of paths ('Paths: the checker and the reader'): what stands between the `|` and between the
//! `/` of a text. It passes more than the checker. Prefixes stay as they are written.

use std::str::from_utf8;

use crate::entries::{Alternative, Test};
use crate::paths::Kind;
use crate::spaces;

/// The alternatives of a path, or none where it does not read. XML's white space is dropped first, and no other.
pub fn read(kind: Kind, path: &[u8]) -> Option<Vec<Alternative>> {
    let is_kept = |c: &char| !spaces::XML.contains(c);
    let path: String = from_utf8(path).ok()?.chars().filter(is_kept).collect();
    path.split('|')
        .map(|text| alternative(kind, text))
        .collect()
}

/// `.//` or not, then parts: the last one of a field may be an attribute test, and `.` adds no step.
fn alternative(kind: Kind, text: &str) -> Option<Alternative> {
    let behind = text.strip_prefix(".//");
    let mut parts: Vec<&str> = behind.unwrap_or(text).split('/').collect();
    let is_attribute = |last: &mut &str| kind == Kind::Field && attribute_part(last).is_some();
    let attribute = match parts.pop_if(is_attribute).and_then(attribute_part) {
        Some(text) => Some(name_test(text)?),
        None => None,
    };
    let children = parts.into_iter().filter(|&part| part != ".");
    let steps: Option<_> = children.map(child_step).collect();
    Some(Alternative {
        descendant: behind.is_some(),
        steps: steps?,
        attribute,
    })
}

/// What is behind `@` or `attribute::`.
fn attribute_part(part: &str) -> Option<&str> {
    let short = part.strip_prefix('@');
    short.or_else(|| part.strip_prefix("attribute::"))
}

/// One `child::` may stand before the name test.
fn child_step(part: &str) -> Option<Test> {
    name_test(part.strip_prefix("child::").unwrap_or(part))
}

/// A local part behind at most one `:`. No digit, `.` or `-` begins the test or its local part, and `*` stands
/// in the local part only alone. What is before the `:` is free, it may be empty.
fn name_test(text: &str) -> Option<Test> {
    let is_letter = |c: char| c.is_ascii_alphanumeric() || "_-.:*".contains(c) || !c.is_ascii();
    let begins = |text: &str| !text.is_empty() && !text.starts_with(|c| "0123456789.-".contains(c));
    let (prefix, local) = match text.split_once(':') {
        Some((prefix, local)) => (Some(prefix.into()), local),
        None => (None, text),
    };
    let has_star = local.contains('*') && local != "*";
    let is_test = text.chars().all(is_letter) && begins(text) && begins(local);
    (is_test && !has_star && !local.contains(':')).then(|| Test {
        prefix,
        local: Some(local.into()).filter(|_| local != "*"),
    })
}
