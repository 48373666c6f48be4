//! The stored answers: the files that `make_answers` writes, and how they are read back.

use std::collections::{BTreeMap, BTreeSet};

use crate::checker::{Call, due};
use crate::identity::Checked;
use crate::random::Random;
use crate::{calls, ncname, paths, texts};

/// `answers/ncname.txt`: texts with the answer of the written-out test.
pub fn ncname_file() -> String {
    let lines = ncname_texts()
        .into_iter()
        .map(|text| format!("{} {}\n", hex(&text), ncname::is_ncname_bytes(&text) as u8));
    let head = "# A text in hex (- is empty), and 1 where it is an NCName.\n\
                # Made by: tools/cargo run --release --offline --bin make_answers";
    format!("{head}\n{}", lines.collect::<String>())
}

/// Every edge of the name ranges as the first and as the second character, then random and damaged
/// texts.
fn ncname_texts() -> Vec<Vec<u8>> {
    let mut list: Vec<Vec<u8>> = ["", "a", "a:b", ":", "1a", "a1", "_.-", "-a", "xml", "a b"]
        .map(|text| text.into())
        .into();
    for code in ncname::edges() {
        let character = texts::encoded(code);
        list.push([b"n".as_slice(), &character].concat());
        list.push(character);
    }
    let mut random = Random::new(0x6E63);
    for _ in 0..60 {
        let name: String = (0..=random.below(4))
            .map(|_| random.character("aZ_\u{E9}\u{4E2D}\u{10400}"))
            .collect();
        list.push(texts::damaged(&mut random, name.as_bytes()));
        list.push(name.into_bytes());
        list.push(texts::valid(&mut random, 3).into_bytes());
    }
    without_repeats(list)
}

/// `crates/stored_paths/stdin`: calls of the path checker with the answers that are due, by the
/// original where nothing refuses them. A call is stored as its kind byte, its path and its prefixes
/// (each a two-byte length, low byte first, and the bytes); one byte for the answer follows.
pub fn paths_file() -> Vec<u8> {
    let mut file = Vec::new();
    for Call {
        kind,
        path,
        prefixes,
    } in path_calls()
    {
        file.push(kind);
        for text in [&path, &prefixes] {
            let length = u16::try_from(text.len()).expect("two bytes hold the length");
            file.extend(length.to_le_bytes());
            file.extend(text);
        }
        file.push(number_of(due(kind, &path, &prefixes)));
    }
    file
}

/// The number that stands for an answer, at the door too.
fn number_of(answer: Checked) -> u8 {
    match answer {
        Checked::Pass => 0,
        Checked::Reason(reason) => 100 + reason,
        Checked::Refused(number) => number,
    }
}

/// What the documents list; what stands at the limits; then random calls: of each kind the first
/// few that get each answer.
fn path_calls() -> Vec<Call> {
    let mut list: Vec<Call> = paths::listed().into_iter().map(|(q, _)| q.into()).collect();
    list.extend(calls::at_the_limits());
    let mut taken: BTreeMap<(u8, Checked), usize> = BTreeMap::new();
    let mut random = Random::new(0x7061);
    for _ in 0..200_000 {
        let call = match random.below(10) {
            0 => calls::call(&mut random),
            _ => paths::question(&mut random).into(),
        };
        let answer = due(call.kind, &call.path, &call.prefixes);
        let count = taken.entry((call.kind, answer)).or_default();
        if *count < most(answer) && stays_small(&call) {
            *count += 1;
            list.push(call);
        }
    }
    without_repeats(list)
}

/// How many random calls of a kind are kept for an answer.
fn most(answer: Checked) -> usize {
    match answer {
        Checked::Pass => 400,
        Checked::Reason(_) => 120,
        Checked::Refused(3) => 60,
        Checked::Refused(_) => 10,
    }
}

/// Few random calls are long, so that the file stays small: those with a path that is too long.
fn stays_small(call: &Call) -> bool {
    call.prefixes.len() < 60 && !(60..=255).contains(&call.path.len())
}

fn without_repeats<T: Ord + Clone>(list: Vec<T>) -> Vec<T> {
    let mut seen = BTreeSet::new();
    list.into_iter()
        .filter(|item| seen.insert(item.clone()))
        .collect()
}

/// The texts of `ncname.txt` with their answers.
pub fn read_ncname(file: &str) -> Vec<(Vec<u8>, bool)> {
    rows(file)
        .map(|row| match row[..] {
            [text, answer] => (from_hex(text), number(answer) == 1),
            _ => panic!("not a line of ncname.txt: {row:?}"),
        })
        .collect()
}

/// The calls of `stored_paths/stdin` with their answers.
pub fn read_paths(file: &[u8]) -> Vec<(Call, Checked)> {
    let mut rest = file;
    let mut list = Vec::new();
    while !rest.is_empty() {
        let kind = take(&mut rest, 1)[0];
        let path = take_text(&mut rest);
        let prefixes = take_text(&mut rest);
        let answer = match take(&mut rest, 1)[0] {
            0 => Checked::Pass,
            number @ 3..=5 => Checked::Refused(number),
            number @ 101..=114 => Checked::Reason(number - 100),
            number => panic!("no answer has the number {number}"),
        };
        list.push((Call::new(kind, path, prefixes), answer));
    }
    list
}

fn take_text<'a>(rest: &mut &'a [u8]) -> &'a [u8] {
    let length = take(rest, 2).try_into().expect("two bytes");
    take(rest, u16::from_le_bytes(length).into())
}

fn take<'a>(rest: &mut &'a [u8], count: usize) -> &'a [u8] {
    rest.split_off(..count)
        .expect("the file ends inside an answer")
}

/// The words of each line that is no comment.
fn rows(file: &str) -> impl Iterator<Item = Vec<&str>> {
    file.lines()
        .filter(|line| !line.starts_with('#'))
        .map(|line| line.split(' ').collect())
}

fn number(word: &str) -> u8 {
    word.parse().expect("a number")
}

fn hex(text: &[u8]) -> String {
    if text.is_empty() {
        return "-".into();
    }
    text.iter().map(|byte| format!("{byte:02x}")).collect()
}

fn from_hex(word: &str) -> Vec<u8> {
    if word == "-" {
        return Vec::new();
    }
    word.as_bytes()
        .chunks(2)
        .map(|pair| {
            let digits = std::str::from_utf8(pair).expect("hex digits");
            u8::from_str_radix(digits, 16).expect("hex digits")
        })
        .collect()
}
