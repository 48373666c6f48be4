//! The writer of paths through its door: against the examples of document 02, U6, against a plain model, and against the
//! original, by which the text is read as the path was.

use std::collections::HashMap;

use host::calls::{PATH_LETTERS, count, texts_of};
use host::entries::Alternative;
use host::identity::{Spelled, spell_path};
use host::model::{paths, spelling};
use host::oracle;
use host::paths::{Kind, readable};
use host::random::Random;
use host::spaces;

/// A byte that stands in no text: what is not written shows.
const GUARD: u8 = 0xF9;

/// What the door answers with an output of so many bytes, and asserts that it writes the text and nothing else.
#[track_caller]
fn spelled(kind: u8, path: &[u8], room: usize) -> Result<Vec<u8>, u8> {
    let mut lent = vec![GUARD; 8 + room + 8];
    let answer = spell_path(kind, path, &mut lent[8..8 + room]);
    let size = match answer {
        Spelled::Text(size) => size,
        Spelled::Refused(_) => 0,
    };
    let (before, rest) = lent.split_at(8);
    let (text, behind) = rest.split_at(size);
    let untouched = before.iter().chain(behind).all(|&byte| byte == GUARD);
    let path = path.escape_ascii();
    assert!(
        untouched,
        "kind {kind}, '{path}', {room} bytes: {lent:02X?}"
    );
    match answer {
        Spelled::Text(_) => Ok(text.to_vec()),
        Spelled::Refused(number) => Err(number),
    }
}

/// The door's answer, which is the model's.
#[track_caller]
fn beside_the_model(kind: u8, path: &[u8], room: usize) -> Result<Vec<u8>, u8> {
    let answer = spelled(kind, path, room);
    let due = spelling::spelled(kind, path, room);
    assert_eq!(
        answer,
        due,
        "kind {kind}, '{}', {room} bytes",
        path.escape_ascii()
    );
    answer
}

/// What the text of a path must do: it is no longer, read by the original as the path is, and spelled as itself. Where the
/// path holds other white space than XML's, the model reads both.
#[track_caller]
fn assert_text(kind: Kind, path: &str, text: &[u8]) {
    let text = str::from_utf8(text).expect("a text is UTF-8");
    assert!(
        text.len() <= path.len() && !text.is_empty(),
        "'{path}': '{text}'"
    );
    let by_the_original = cfg!(oracle) && !spaces::holds_other(path);
    let read = |text: &str| match by_the_original {
        true => oracle::reader::read(kind, text),
        false => paths::read(kind, text.as_bytes()),
    };
    assert_eq!(read(text), read(path), "{kind:?} '{path}': '{text}'");
    let again = spelled(kind.number(), text.as_bytes(), text.len());
    assert_eq!(again.as_deref(), Ok(text.as_bytes()), "{kind:?} '{path}'");
}

#[test]
fn the_examples_of_document_02_and_their_neighbours() {
    let rows = [
        (".//./@id", ".//@id"),
        ("./.", "."),
        (".//.", ".//."),
        ("./.|.//.", ".|.//."),
        ("./a", "a"),
        ("./@id", "@id"),
        ("child::a/attribute::b", "a/@b"),
        (" a / b\t|\nc ", "a/b|c"),
        ("a|a", "a|a"),
        ("b|a", "b|a"),
        (":a", ":a"),
        ("*:a", "*:a"),
        ("child:a", "child:a"),
        ("child::child", "child"),
        ("child:::a", ":a"),
        ("attribute::attribute", "@attribute"),
        ("@p:id", "@p:id"),
        ("child::*/@*", "*/@*"),
    ];
    for (path, text) in rows {
        let answer = beside_the_model(1, path.as_bytes(), 255);
        assert_eq!(answer.as_deref(), Ok(text.as_bytes()), "'{path}'");
        assert_text(Kind::Field, path, text.as_bytes());
    }
}

/// Every path of up to five letters, in both kinds. No two that are read otherwise have one text.
#[test]
fn every_short_path_is_spelled_as_the_model_says_and_read_as_before() {
    let mut texts: HashMap<Vec<u8>, Vec<Alternative>> = HashMap::new();
    let (mut read, mut unread) = (0, 0);
    for length in 0..=5 {
        for path in texts_of(&PATH_LETTERS, length, 0..count(&PATH_LETTERS, length)) {
            for kind in Kind::BOTH {
                match beside_the_model(kind.number(), path.as_bytes(), 255) {
                    Ok(text) => {
                        assert_text(kind, &path, &text);
                        let alternatives = paths::read(kind, path.as_bytes()).expect("it is read");
                        let first = texts.entry(text).or_insert_with(|| alternatives.clone());
                        assert_eq!(*first, alternatives, "{kind:?} '{path}'");
                        read += 1;
                    }
                    Err(number) => {
                        assert_eq!(number, 23, "{kind:?} '{path}'");
                        unread += 1;
                    }
                }
            }
        }
    }
    assert!(
        read > 10_000 && unread > 100_000,
        "{read} read, {unread} unread"
    );
    assert!(
        texts.len() > 1_000 && texts.len() < read,
        "{} texts",
        texts.len()
    );
}

#[test]
fn random_paths_with_white_space_are_spelled_as_the_model_says() {
    let mut random = Random::new(0x5BE1);
    let mut shorter = 0;
    for _ in 0..20_000 {
        let kind = random.pick(&Kind::BOTH);
        let path = readable(&mut random, kind);
        let Ok(text) = beside_the_model(kind.number(), path.as_bytes(), 255) else {
            continue;
        };
        assert_text(kind, &path, &text);
        shorter += usize::from(text.len() < path.len());
        for room in [0, text.len() - 1, text.len(), text.len() + 1, 254, 255, 300] {
            let fits = beside_the_model(kind.number(), path.as_bytes(), room).is_ok();
            assert_eq!(fits, room >= text.len(), "'{path}', {room} bytes");
        }
    }
    assert!(
        shorter > 5_000,
        "{shorter} texts are shorter than their paths"
    );
}

/// 5 looks at the path as it is handed in: 255 bytes, seven bars and sixteen slashes are taken.
#[test]
fn each_limit_and_one_past_it() {
    let spaces = |length: usize| " ".repeat(length - 1) + "a";
    let rows: [(String, Result<usize, u8>); 11] = [
        ("a".repeat(254), Ok(254)),
        ("a".repeat(255), Ok(255)),
        ("a".repeat(256), Err(5)),
        (spaces(255), Ok(1)),
        (spaces(256), Err(5)),
        (["a"; 8].join("|"), Ok(15)),
        (["a"; 9].join("|"), Err(5)),
        (["a"; 17].join("/"), Ok(33)),
        (["a"; 18].join("/"), Err(5)),
        (["."; 17].join("/"), Ok(1)),
        (["."; 18].join("/"), Err(5)),
    ];
    for (path, due) in rows {
        for kind in [0, 1] {
            let answer = beside_the_model(kind, path.as_bytes(), 255);
            assert_eq!(answer.map(|text| text.len()), due, "kind {kind}, '{path}'");
        }
    }
}

/// 4, 3, 5, 23, 24, each before those that come behind it.
#[test]
fn refusals_come_in_their_order() {
    let long_unread = "|".repeat(256);
    let long_damaged = [&[0xFF][..], long_unread.as_bytes()].concat();
    let rows: [(u8, &[u8], usize, u8); 8] = [
        (2, &long_damaged, 0, 4),
        (255, b"a", 255, 4),
        (1, &long_damaged, 0, 3),
        (1, long_unread.as_bytes(), 0, 5),
        (0, b"@id", 0, 23),
        (1, b"", 0, 23),
        (1, b"@id", 0, 24),
        (1, b"@id", 2, 24),
    ];
    for (kind, path, room, due) in rows {
        assert_eq!(
            beside_the_model(kind, path, room),
            Err(due),
            "'{}'",
            path.escape_ascii()
        );
    }
}
