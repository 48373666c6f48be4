//! Matching: against document 01's cases, against the unchanged `matches`, `attr_matches` and
//! `identity_element_start`, and on any bytes against a plain reading of the definitions.

use host::cases;
use host::definitions::{Binding, Constraint, Record};
use host::doors::Lent;
use host::entries::{self, Alternative};
use host::matching::{Answer, Bytes, Case, compared, due_in_session, given, in_session, plain};
use host::names::{self, NAME, Name};
use host::paths::Kind;
use host::random::Random;
use host::tally::Matches;
use host::texts;

fn name(space: &str, qualified: &str) -> Name {
    Name {
        space: space.into(),
        qualified: qualified.into(),
    }
}

/// What is answered of a path on the names below a base element, where no prefix is bound.
fn asked(kind: Kind, path: &[Alternative], below: &[Name], attribute: &str) -> Answer {
    let names = [&[name("u", "base")], below].concat();
    let lent = Lent {
        area: &entries::put(path),
        names: &names::put(&names),
        base: 1,
        depth: names.len() as u32,
        own: b"",
        schema: b"",
        target: 1 + kind.number(),
    };
    given(kind, lent, attribute.as_bytes())
}

/// Document 01's conditions of acceptance: the four cases of matching, which are marked P, `a|a` as U5 has it.
#[test]
fn the_cases_of_document_01_match_as_it_says() {
    let anywhere = Alternative::new(true, &[], None);
    let itself = Alternative::new(false, &[], None);
    let child = Alternative::new(false, &["a"], None);
    let (a, b) = (name("", "a"), name("", "b"));
    let rows: [(&str, &Alternative, &[Name], bool); 9] = [
        (".//. and the empty path", &anywhere, &[], true),
        (".//. and a/b", &anywhere, &[a.clone(), b.clone()], true),
        (". and the empty path", &itself, &[], true),
        (". and a", &itself, &[a.clone()], false),
        (". and a/b", &itself, &[a.clone(), b.clone()], false),
        ("a and a in no namespace", &child, &[a.clone()], true),
        ("a and a in one", &child, &[name("u", "a")], true),
        ("a and a with a prefix", &child, &[name("v", "q:a")], true),
        ("a and b", &child, &[b], false),
    ];
    for (case, path, below, due) in rows {
        let answer = asked(Kind::Selector, &[path.clone()], below, "");
        assert_eq!(answer, Answer::Selects(due), "{case}");
    }
    let twice = asked(Kind::Field, &[child.clone(), child], &[a], "a");
    let due = Answer::Reaches {
        element: 1,
        attribute: 0,
    };
    assert_eq!(twice, due, "field a|a and one child a");
}

/// Only the part after the last `:` counts, and `*` takes all.
#[test]
fn listed_attributes_are_reached_by_their_local_part() {
    let rows = [
        ("id", "id", 1),
        ("id", "p:id", 1),
        ("id", "x:y:id", 1),
        ("id", "id:", 0),
        ("id", "idx", 0),
        ("id", "", 0),
        ("p:id", "id", 1),
        ("p:id", "q:id", 1),
        ("*", "id", 1),
        ("p:*", "q:id", 1),
        ("*", "", 1),
    ];
    for (test, name, attribute) in rows {
        let path = [Alternative::new(false, &[], Some(test))];
        let due = Answer::Reaches {
            element: 0,
            attribute,
        };
        assert_eq!(
            asked(Kind::Field, &path, &[], name),
            due,
            "@{test} '{name}'"
        );
    }
}

/// Two halves of 257 bytes, each a two-byte length, the low byte first, a text and zeros.
#[test]
fn the_bytes_of_a_name_are_those_of_their_definition() {
    let bytes = names::put(&[
        name("", ""),
        name("u", "x:y:ab"),
        name(&"s".repeat(255), "p:"),
    ]);
    assert_eq!(bytes.len(), 3 * NAME);
    let (none, second, third) = (&bytes[..514], &bytes[514..1028], &bytes[1028..]);
    assert_eq!(none, [0; 514]);
    assert_eq!(second[..4], [1, 0, b'u', 0]);
    assert_eq!(second[257..262], [2, 0, b'a', b'b', 0]);
    assert_eq!(second.iter().filter(|&&byte| byte == 0).count(), 514 - 5);
    assert_eq!(third[..257], [&[255, 0][..], &[b's'; 255]].concat());
    assert_eq!(third[257..], [0; 257]);
}

/// A case, and the same path from other base elements and to other elements.
#[test]
#[cfg_attr(
    not(oracle),
    ignore = "not compared: the original Rust is not there (FASTXML_SRC, ../shared/docs/src)"
)]
fn random_paths_match_what_they_match_for_the_original() {
    let mut random = Random::new(0x3A7C);
    let mut matches = Matches::default();
    let mut deep = 0;
    for _ in 0..10_000 {
        let mut case = cases::case(&mut random);
        for _ in 0..3 {
            let answer = compared(&case);
            matches.take(answer);
            let long = case.depth - case.base > 20;
            deep += usize::from(long && answer == Answer::Selects(true));
            case.depth = random.below(case.names.len().min(64) + 1);
            case.base = random.below(case.depth + 1);
        }
    }
    matches.assert_each_at_least(300);
    assert!(deep > 100, "{deep} selectors match more than 20 names");
}

/// The original counts the alternatives that reach a node; here the node is one hit where there is any.
#[test]
#[cfg_attr(
    not(oracle),
    ignore = "not compared: the original Rust is not there (FASTXML_SRC, ../shared/docs/src)"
)]
fn random_paths_match_what_they_match_in_a_session_of_the_original() {
    let mut random = Random::new(0x5E55);
    let mut matches = Matches::default();
    for _ in 0..8_000 {
        let case = cases::case(&mut random);
        if case.base == 0 {
            continue;
        }
        let bytes = Bytes::of(&case).expect("a path that is read");
        let given = given(case.kind(), bytes.lent(&case), case.attribute.as_bytes());
        let due = due_in_session(&case);
        assert_eq!(in_session(&case, given), due.once(), "{case:#?}");
        matches.take(due);
    }
    matches.assert_each_at_least(50);
}

/// Elements of two names: any of them can be the base element of any below it.
#[test]
#[cfg_attr(
    not(oracle),
    ignore = "not compared: the original Rust is not there (FASTXML_SRC, ../shared/docs/src)"
)]
fn a_path_matches_from_each_of_the_nested_elements_what_it_does_for_the_original() {
    let paths = [
        "a",
        "a/b",
        ".//a",
        ".//b/a",
        ".//a/*/b",
        "*/*",
        "p:a",
        ".//p:*/a",
        "a/b/a|.//b",
        ".",
    ];
    let mut random = Random::new(0x4E57);
    let mut matches = Matches::default();
    for path in paths {
        for target in [1, 2] {
            for _ in 0..4 {
                let mut case = nested(&mut random, target, path);
                for depth in 0..=case.names.len() {
                    for base in 0..=depth {
                        (case.base, case.depth) = (base, depth);
                        matches.take(compared(&case));
                    }
                }
            }
        }
    }
    let Matches { selects, .. } = matches;
    assert!(selects.iter().all(|&count| count > 500), "{selects:?}");
}

/// Twelve elements `a` or `b`, in the namespace that `p` is bound to or in none.
fn nested(random: &mut Random, target: u8, path: &str) -> Case {
    let names = (0..12)
        .map(|_| name(random.pick(&["", "u"]), random.pick(&["a", "b", "x:a"])))
        .collect();
    let case = Case {
        records: vec![constraint(), binding(0, "p", "u")],
        number: 0,
        target,
        names,
        base: 0,
        depth: 0,
        attribute: "id".into(),
    };
    case.with_path(path.into())
}

fn constraint() -> Record {
    Record::Id(Constraint {
        kind: 0,
        name: "c".into(),
        refer: None,
        selector: ".".into(),
        fields: vec![".".into()],
    })
}

fn binding(target: u8, prefix: &str, uri: &str) -> Record {
    Record::Ns(Binding {
        target,
        prefix: prefix.into(),
        uri: uri.into(),
    })
}

/// Texts that fill their places, and texts that differ in their last byte or in length alone.
#[test]
#[cfg_attr(
    not(oracle),
    ignore = "not compared: the original Rust is not there (FASTXML_SRC, ../shared/docs/src)"
)]
fn texts_of_up_to_255_bytes_are_compared_whole() {
    let mut matches = Matches::default();
    for length in [1, 2, 127, 128, 200, 253] {
        let local = "l".repeat(length);
        for space_length in [1, 254, 255] {
            let space = "s".repeat(space_length);
            let others = |text: &str| {
                let shorter = &text[1..];
                [text.to_string(), shorter.into(), shorter.to_string() + "x"]
            };
            for other_space in others(&space) {
                for other_local in others(&local) {
                    for target in [1, 2] {
                        let case = Case {
                            records: vec![constraint(), binding(target, "p", &space)],
                            number: 0,
                            target,
                            names: vec![name("", "base"), name(&other_space, &other_local)],
                            base: 1,
                            depth: 2,
                            attribute: other_local.clone(),
                        };
                        matches.take(compared(&case.with_path(format!("p:{local}"))));
                        if target == 2 && length < 253 {
                            matches.take(compared(&case.with_path(format!("*/@{local}"))));
                        }
                    }
                }
            }
        }
    }
    let Matches {
        selects, attribute, ..
    } = matches;
    assert!(
        selects[1] >= 18 && attribute[1] >= 45,
        "{selects:?} {attribute:?}"
    );
}

/// Entries, names and bindings with some bytes changed or cut off, and depths that no element has.
#[test]
#[cfg_attr(
    not(oracle),
    ignore = "not compared: the original Rust is not there (FASTXML_SRC, ../shared/docs/src)"
)]
fn on_any_bytes_the_answers_are_those_of_a_plain_reading() {
    let mut random = Random::new(0xA4B);
    let mut matches = Matches::default();
    for _ in 0..12_000 {
        let case = cases::case(&mut random);
        let mut bytes = Bytes::of(&case).expect("a path that is read");
        damage(&mut random, &mut bytes);
        let mut lent = bytes.lent(&case);
        if random.once_in(8) {
            lent.base = random.pick(&[lent.depth, lent.depth + 1, 1000, u32::MAX]);
        }
        if random.once_in(8) {
            lent.depth = random.pick(&[0, 65, 1000, u32::MAX]);
        }
        let attribute = case.attribute.as_bytes();
        for kind in Kind::BOTH {
            let due = plain(kind, lent, attribute);
            let given = given(kind, lent, attribute);
            assert_eq!(given, due, "{}", shown(lent, &case));
            matches.take(due);
        }
    }
    matches.assert_hits_at_least(100);
}

/// Some of the bytes of one to three of the texts.
fn damage(random: &mut Random, bytes: &mut Bytes) {
    for _ in 0..=random.below(3) {
        match random.below(4) {
            0 => bytes.area = texts::damaged(random, &bytes.area),
            1 => bytes.names = texts::damaged(random, &bytes.names),
            2 => {
                let part = random.below(bytes.names.len() + 1);
                bytes.names.truncate(part);
            }
            _ => {
                bytes.store = texts::damaged(random, &bytes.store);
                bytes.own.end = bytes.own.end.min(bytes.store.len());
                bytes.own.start = bytes.own.start.min(bytes.own.end);
            }
        }
    }
}

fn shown(lent: Lent, case: &Case) -> String {
    format!(
        "base {}, depth {}, target {}, attribute '{}'\narea {:?}\nwhich is {:?}\nown '{}'\n\
         schema-wide '{}'\nnames of {} bytes, {:?}",
        lent.base,
        lent.depth,
        lent.target,
        case.attribute,
        lent.area,
        entries::read(lent.area),
        lent.own.escape_ascii(),
        lent.schema.escape_ascii(),
        lent.names.len(),
        case.names,
    )
}
