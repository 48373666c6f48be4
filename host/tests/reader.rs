//! The path reader: against the cases that document 01 lists, against the unchanged `parse_selector`
//! and `parse_field`, and against the path checker, of which it passes more. What it reads is
//! compared by the bytes of its entries.

use std::str::from_utf8;

use host::calls::{self, PATH_LETTERS, prefixes_for, texts_of};
use host::doors::{self, Parsed};
use host::entries::{self, Alternative};
use host::identity::{Checked, check_path};
use host::paths::{self, Kind};
use host::random::Random;
use host::reader::{AREA_MIN, Due, compare_short_paths, compared, fault};
use host::tally::Readings;
use host::texts;

const PASS: Checked = Checked::Pass;
const SELECTOR: &[Kind] = &[Kind::Selector];
const FIELD: &[Kind] = &[Kind::Field];
const EITHER: &[Kind] = &Kind::BOTH;

/// One alternative, of child steps alone.
fn steps(steps: &[&str]) -> Due {
    Due::Read(vec![Alternative::new(false, steps, None)])
}

#[track_caller]
fn assert_due(kind: Kind, path: &[u8], area: usize, due: &Due) {
    let fault = fault(kind, path, area, due);
    let path = path.escape_ascii();
    assert_eq!(fault, None, "{kind:?} '{path}', area of {area} bytes");
}

/// Document 01's conditions of acceptance: the cases marked P, then the others. A path has its
/// reason of the checker, where no prefix is declared, and what the reader makes of it.
#[test]
fn the_cases_of_document_01_are_checked_and_read_as_it_says() {
    let twice = Due::Read(vec![Alternative::new(false, &["a"], None); 2]);
    let descent = Due::Read(vec![Alternative::new(true, &[], None)]);
    let rows: [(&[Kind], &str, Checked, Due); 18] = [
        (EITHER, ".//.", PASS, descent),
        (EITHER, ".", PASS, steps(&[])),
        (EITHER, "a", PASS, steps(&["a"])),
        (FIELD, "a|a", PASS, twice),
        (EITHER, ":a", Checked::Reason(2), steps(&[":a"])),
        (EITHER, "a b", Checked::Reason(14), steps(&["ab"])),
        (EITHER, "*:a", Checked::Reason(2), steps(&["*:a"])),
        (EITHER, "p:a", Checked::Reason(11), steps(&["p:a"])),
        (EITHER, ".//", Checked::Reason(7), Due::Unread),
        (EITHER, "a|", Checked::Reason(6), Due::Unread),
        (SELECTOR, "@id", Checked::Reason(8), Due::Unread),
        (EITHER, "a//b", Checked::Reason(14), Due::Unread),
        (EITHER, "a/", Checked::Reason(13), Due::Unread),
        (EITHER, "/a", Checked::Reason(12), Due::Unread),
        (EITHER, "parent::a", Checked::Reason(10), Due::Unread),
        (EITHER, "*::a", Checked::Reason(9), Due::Unread),
        (EITHER, "a:", Checked::Reason(4), Due::Unread),
        (EITHER, "-a", Checked::Reason(5), Due::Unread),
    ];
    for (kinds, path, reason, reading) in rows {
        for &kind in kinds {
            let checked = check_path(kind.number(), path.as_bytes(), b"");
            assert_eq!(checked, reason, "{kind:?} '{path}'");
            assert_due(kind, path.as_bytes(), AREA_MIN, &reading);
        }
    }
}

/// What `crates/path_entries/specs/Examples.antt` computes: the bytes, and what is whole of them
/// where they are cut off.
#[test]
fn the_entries_of_a_path_are_the_bytes_of_their_definition() {
    let path = vec![
        Alternative::new(true, &["a", "p:*"], None),
        Alternative::new(false, &[":b"], Some("c")),
    ];
    let bytes = [
        2, 1, 2, 0, 1, 97, 1, 1, 112, 0, 0, 0, 1, 1, 0, 1, 98, 1, 0, 1, 99,
    ];
    assert_eq!(entries::put(&path), bytes);
    let whole = |length: &usize| entries::read(&bytes[..*length]).len();
    assert_eq!(
        [0, 1, 10, 11, 20, 21].each_ref().map(whole),
        [0, 0, 0, 1, 1, 2]
    );
    assert_due(Kind::Field, b".//a/p:*|:b/@c", AREA_MIN, &Due::Read(path));
}

/// The prefix of an attribute test is kept; XML's white space goes wherever it stands, and no other.
#[test]
fn listed_fields_are_read_as_they_are_written() {
    let rows: [(&str, &[Alternative]); 6] = [
        ("@p:id", &[Alternative::new(false, &[], Some("p:id"))]),
        (".//attribute::*", &[Alternative::new(true, &[], Some("*"))]),
        ("./a/./@:*", &[Alternative::new(false, &["a"], Some(":*"))]),
        ("child:::a", &[Alternative::new(false, &[":a"], None)]),
        ("a*:b", &[Alternative::new(false, &["a*:b"], None)]),
        (
            "\n. / / ch ild\r::p\u{1680}:\u{A0} a | @ i\td",
            &[
                Alternative::new(true, &["p\u{1680}:\u{A0}a"], None),
                Alternative::new(false, &[], Some("id")),
            ],
        ),
    ];
    for (path, read) in rows {
        assert_due(
            Kind::Field,
            path.as_bytes(),
            AREA_MIN,
            &Due::Read(read.into()),
        );
    }
}

#[test]
fn there_is_room_for_255_bytes_of_path_in_1024_bytes_of_area() {
    let (mut room, mut none) = (0, 0);
    for area in [0, 1, 512, 1022, 1023, 1024, 1025, 2048, 16_384] {
        for length in [1, 2, 254, 255, 256, 257, 300] {
            let name = "a".repeat(length);
            let bars = "|".repeat(length);
            let damaged = [&name.as_bytes()[1..], b"\xFF"].concat();
            let fits = length <= 255 && area >= 1024;
            let due = |due: Due| if fits { due } else { Due::NoRoom };
            for kind in Kind::BOTH {
                assert_due(kind, name.as_bytes(), area, &due(steps(&[&name])));
                assert_due(kind, bars.as_bytes(), area, &due(Due::Unread));
                assert_due(kind, &damaged, area, &due(Due::Unread));
            }
            *(if fits { &mut room } else { &mut none }) += 1;
        }
    }
    assert_eq!((room, none), (4 * 4, 9 * 7 - 4 * 4));
}

/// 128 alternatives of six bytes and the byte that says how many they are.
#[test]
fn the_longest_entries_of_a_path_are_written_whole() {
    let path = "a|".repeat(127) + "a";
    let read = vec![Alternative::new(false, &["a"], None); 128];
    assert_eq!(entries::put(&read).len(), 769);
    for area in [AREA_MIN, AREA_MIN + 1] {
        for kind in Kind::BOTH {
            assert_due(kind, path.as_bytes(), area, &Due::Read(read.clone()));
        }
    }
}

#[test]
fn bytes_that_are_not_utf8_are_unread() {
    let mut random = Random::new(0xBAD8);
    let mut unread = 0;
    for _ in 0..100_000 {
        let kind = random.pick(&Kind::BOTH);
        let whole = match random.below(2) {
            0 => paths::readable(&mut random, kind),
            _ => paths::grammatical(&mut random, kind),
        };
        let damaged = texts::damaged(&mut random, whole.as_bytes());
        if from_utf8(&damaged).is_err() && damaged.len() <= 255 {
            assert_due(kind, &damaged, AREA_MIN + 64, &Due::Unread);
            unread += 1;
        }
    }
    assert!(unread > 20_000, "{unread} unread");
}

#[test]
#[cfg_attr(
    not(oracle),
    ignore = "not compared: the original Rust is not there (FASTXML_SRC, ../shared/docs/src)"
)]
fn every_path_of_up_to_five_letters_is_read_as_the_original_reads_it() {
    let mut readings = Readings::default();
    for length in 0..=5 {
        let all = 0..calls::count(&PATH_LETTERS, length);
        readings.add(compare_short_paths(length, all));
    }
    assert_eq!(readings.all(), 2 * 813_616);
    readings.assert_each_at_least(200);
}

/// Each path with the prefixes of which it may have one.
#[test]
fn what_the_checker_passes_is_read() {
    let mut area = [0; AREA_MIN];
    let mut passed = [0; 2];
    for length in 0..=5 {
        let all = 0..calls::count(&PATH_LETTERS, length);
        for path in texts_of(&PATH_LETTERS, length, all) {
            for kind in Kind::BOTH {
                let passes = |prefixes: &&str| {
                    check_path(kind.number(), path.as_bytes(), prefixes.as_bytes()) == PASS
                };
                if prefixes_for(&path).iter().any(|prefixes| passes(&prefixes)) {
                    let read = doors::parse(kind == Kind::Field, path.as_bytes(), &mut area);
                    let is_read = matches!(read, Parsed::Read(_));
                    assert!(is_read, "{kind:?} '{}' passes", path.escape_debug());
                    passed[usize::from(kind.number())] += 1;
                }
            }
        }
    }
    assert!(passed.iter().all(|&count| count > 5_000), "{passed:?}");
}

#[test]
#[cfg_attr(
    not(oracle),
    ignore = "not compared: the original Rust is not there (FASTXML_SRC, ../shared/docs/src)"
)]
fn every_character_in_a_prefix_and_as_a_name_is_read_as_the_original_reads_it() {
    let mut readings = Readings::default();
    for c in texts::scalars() {
        let path = format!("a{c}b:{c}");
        let due = compared(Kind::Field, path.as_bytes(), AREA_MIN);
        readings.take(Kind::Field, &due);
    }
    // ASCII letters, `_`, `*`, and all that is not ASCII.
    let wide = 0x110000 - 0x800 - 128;
    assert_eq!(readings.of("field"), 52 + 2 + wide);
    assert_eq!(readings.all(), 0x110000 - 0x800);
}

/// Every character of one byte or two, in all places of a short path.
#[test]
#[cfg_attr(
    not(oracle),
    ignore = "not compared: the original Rust is not there (FASTXML_SRC, ../shared/docs/src)"
)]
fn every_short_character_at_any_place_is_read_as_the_original_reads_it() {
    let mut readings = Readings::default();
    for c in '\0'..='\u{7FF}' {
        for around in [
            "",
            "a",
            ".//a",
            "@a",
            "p:a",
            "child::a",
            "attribute::a",
            "a|*/@p:*",
        ] {
            for at in 0..=around.len() {
                let path = format!("{}{c}{}", &around[..at], &around[at..]);
                for kind in Kind::BOTH {
                    readings.take(kind, &compared(kind, path.as_bytes(), AREA_MIN));
                }
            }
        }
    }
    readings.assert_each_at_least(1_000);
}

/// Steps, alternatives and characters, as many as a path can hold and one more.
#[test]
#[cfg_attr(
    not(oracle),
    ignore = "not compared: the original Rust is not there (FASTXML_SRC, ../shared/docs/src)"
)]
fn paths_with_any_number_of_parts_are_read_as_the_original_reads_them() {
    let parts = [
        "a/",
        "./",
        "p:*/",
        "child::a/",
        "a|",
        ".|",
        "*|",
        ":*|",
        "@a|",
        ".//a|",
        "@",
        " ",
        "\u{3000}",
        "a",
        "\u{E9}",
        "-",
    ];
    let ends = [
        "", "a", ".", "@a", "@p:*", "q:a", "/", "|", ":", "-", "\u{A0}",
    ];
    let mut readings = Readings::default();
    for part in parts {
        for count in 0..=256 / part.len() {
            for end in ends {
                let path = part.repeat(count) + end;
                for kind in Kind::BOTH {
                    readings.take(kind, &compared(kind, path.as_bytes(), AREA_MIN));
                }
            }
        }
    }
    readings.assert_each_at_least(100);
    assert!(readings.of("no room") > 100);
}

#[test]
#[cfg_attr(
    not(oracle),
    ignore = "not compared: the original Rust is not there (FASTXML_SRC, ../shared/docs/src)"
)]
fn random_paths_are_read_as_the_original_reads_them() {
    let mut random = Random::new(0x4EAD);
    let mut readings = Readings::default();
    let mut long = 0;
    for _ in 0..200_000 {
        let kind = random.pick(&Kind::BOTH);
        let path = random_path(&mut random, kind);
        let area = AREA_MIN + random.pick(&[0, 0, 1, 100]);
        let due = compared(kind, &path, area);
        readings.take(kind, &due);
        long += usize::from(path.len() > 100 && matches!(due, Due::Read(_)));
    }
    readings.assert_each_at_least(5_000);
    assert!(readings.of("no room") > 1_000);
    assert!(long > 1_000, "{long} long paths are read");
}

/// A path of the checker's tests, or one that is read, or one that nearly is.
fn random_path(random: &mut Random, kind: Kind) -> Vec<u8> {
    match random.below(4) {
        0 => calls::path(random),
        1 => {
            let path = paths::readable(random, kind);
            paths::edited(random, &path).into_bytes()
        }
        2 => {
            let path = paths::readable(random, Kind::Field);
            (path.clone() + "|" + &path).into_bytes()
        }
        _ => paths::readable(random, kind).into_bytes(),
    }
}
