//! White space in paths. XML's four characters are it, and the other 21 with Unicode's property White_Space are
//! ordinary characters. To the original they are white space, so it is asked of no path that holds one.

/// Space, tab, carriage return and line feed.
pub const XML: [char; 4] = [' ', '\t', '\r', '\n'];

/// Some of the others: the two of ASCII, the one that is a character of names, and some that are in no name.
pub const OTHER: [char; 8] = [
    '\u{B}', '\u{C}', '\u{1680}', '\u{85}', '\u{A0}', '\u{2003}', '\u{2028}', '\u{3000}',
];

pub fn is_other(c: char) -> bool {
    c.is_whitespace() && !XML.contains(&c)
}

pub fn holds_other(text: &str) -> bool {
    text.contains(is_other)
}

/// A path and prefixes of which the original is to say what is due for these: each other white space of the path is a
/// character of the same sort that is white space to nobody. One in ASCII stands in no token, one in no name stands in
/// none; for U+1680 it is a letter that stands nowhere else, and in the prefixes too.
pub fn stood_in(path: &str, prefixes: &str) -> (String, String) {
    let is_free = |c: &char| !path.contains(*c) && !prefixes.contains(*c);
    let letter = ('\u{1681}'..='\u{169A}')
        .find(is_free)
        .expect("a letter that stands nowhere");
    let stand_in = |c: char| match c {
        '\u{1680}' => letter,
        '\u{B}' | '\u{C}' => '\u{1}',
        c if is_other(c) => '\u{D7}',
        c => c,
    };
    let path = path.chars().map(stand_in).collect();
    (path, prefixes.replace('\u{1680}', &letter.to_string()))
}
