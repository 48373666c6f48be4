//! The path checker through the library's own call: against the reasons that the documents list,
//! against a plain reading of the refusals, and against the unchanged `validate_identity_xpath`.

use host::calls::{self, PATH_LETTERS, PREFIX_LETTERS, ending_in_p};
use host::checker::{Call, compare_short_paths, compared};
use host::identity::{Checked, check_path};
use host::random::Random;
use host::streams;
use host::tally::Answers;
use host::{paths, texts};

/// The examples of the documents, each a row of its own.
#[test]
fn the_listed_paths_get_the_listed_reasons() {
    let mut answers = Answers::default();
    for (question, listed) in paths::listed() {
        let due = match listed {
            0 => Checked::Pass,
            reason => Checked::Reason(reason),
        };
        let call = Call::from(question);
        assert_eq!(call.answer(), due, "{call:?}");
        answers.take(call.kind, due);
    }
    answers.assert_reasons_at_least(1);
}

/// What the documentation of `check_path` shows.
#[test]
fn the_documented_calls_are_answered_as_documented() {
    assert_eq!(check_path(1, b"voucher/@p:id", b"p"), Checked::Pass);
    assert_eq!(check_path(1, b"voucher/@p:id", b""), Checked::Reason(11));
    assert_eq!(check_path(0, b"voucher/@p:id", b"p"), Checked::Reason(8));
    assert_eq!(check_path(2, b"voucher", b""), Checked::Refused(4));
}

#[test]
fn a_call_is_refused_for_its_kind_then_for_its_bytes_then_for_its_length() {
    let (longest, longer) = ("a".repeat(255), "a".repeat(256));
    let (most, more) = (" ".repeat(16_384), " ".repeat(16_385));
    // 255 bytes that end inside a character, and 256 whose 255th and 256th are one.
    let (cut, over) = (
        ["a".repeat(254).as_bytes(), b"\xC3"].concat(),
        "a".repeat(254) + "\u{E9}",
    );
    let damaged = ["a".repeat(299).as_bytes(), b"\xFF"].concat();
    let damaged_prefixes = [&b"\xED\xA0\x80"[..], more.as_bytes()].concat();
    let (read_whole, cut_off) = (ending_in_p(16_384), b"x".repeat(16_384));
    let pass = Checked::Pass;
    let rows: [(u8, &[u8], &[u8], Checked); 24] = [
        (0, b"a", b"", pass),
        (1, b"a", b"", pass),
        (2, b"a", b"", Checked::Refused(4)),
        (255, b"a", b"", Checked::Refused(4)),
        (2, b"", b"", Checked::Refused(4)),
        (2, &damaged, &damaged_prefixes, Checked::Refused(4)),
        (0, &damaged, &damaged_prefixes, Checked::Refused(3)),
        (0, b"\xFF", b"", Checked::Refused(3)),
        (1, b"a", b"\xC0\xAF", Checked::Refused(3)),
        (1, b"a", &damaged_prefixes, Checked::Refused(3)),
        (0, &damaged, b"", Checked::Refused(3)),
        (0, b":a", b"\x80", Checked::Refused(3)),
        (0, &cut, b"", Checked::Refused(3)),
        (0, longest.as_bytes(), b"", pass),
        (0, longer.as_bytes(), b"", Checked::Refused(5)),
        (0, over.as_bytes(), b"", Checked::Refused(5)),
        (1, b"a", most.as_bytes(), pass),
        (1, b"a", more.as_bytes(), Checked::Refused(5)),
        (0, longest.as_bytes(), most.as_bytes(), pass),
        (0, longer.as_bytes(), more.as_bytes(), Checked::Refused(5)),
        (0, b"", more.as_bytes(), Checked::Refused(5)),
        (0, b"", most.as_bytes(), Checked::Reason(1)),
        (0, b"p:a", &read_whole, pass),
        (0, b"p:a", &cut_off, Checked::Reason(11)),
    ];
    for (kind, path, prefixes, due) in rows {
        let call = Call::new(kind, path, prefixes);
        assert_eq!(call.answer(), due, "{call:?}");
    }
}

/// Kinds, lengths and damage in all combinations. One of the paths asks for the prefix that the
/// prefixes end in.
#[test]
#[cfg_attr(
    not(oracle),
    ignore = "not compared: the original Rust is not there (FASTXML_SRC, ../shared/docs/src)"
)]
fn around_the_limits_the_answers_are_those_that_are_due() {
    let mut answers = Answers::default();
    let path_lengths = (3..6).chain(252..259);
    for length in path_lengths {
        for path in paths_of(length) {
            for prefixes in [0, 1, 2, 3, 255, 256, 16_383, 16_384, 16_385, 16_386].map(ending_in_p)
            {
                for kind in [0, 1, 2, 128, 255] {
                    answers.take(kind, compared(kind, &path, &prefixes));
                }
            }
        }
    }
    answers.assert_refusals_at_least(100);
    assert_eq!(answers.all(), 10 * 8 * 10 * 5);
}

/// Paths of exactly so many bytes: plain, prefixed, with wide characters, with white space, that
/// end in what is wrong, and damaged ones.
fn paths_of(length: usize) -> [Vec<u8>; 8] {
    let ending = |end: &[u8]| [&b"a".repeat(length - end.len()), end].concat();
    let beginning = |begin: &[u8]| [begin, &b"a".repeat(length - begin.len())].concat();
    [
        ending(b"a"),
        beginning(b"p:"),
        ending("\u{E9}".as_bytes()),
        ending(b" \t"),
        ending(b"|"),
        ending(b"//"),
        ending(b"\xE2\x82"),
        beginning(b"\x80"),
    ]
}

/// Steps, alternatives, tokens and white space, as many as a path can hold and one more; with an end
/// that is looked at only where all of them were walked.
#[test]
#[cfg_attr(
    not(oracle),
    ignore = "not compared: the original Rust is not there (FASTXML_SRC, ../shared/docs/src)"
)]
fn paths_with_any_number_of_parts_get_the_answers_that_are_due() {
    let parts = [
        "a/",
        "./",
        "p:*/",
        "child::a/",
        "a|",
        "@a|",
        ".//a|",
        "@",
        "*",
        "::",
        " ",
        "\u{3000}",
        "a",
        "\u{E9}",
    ];
    let ends = [
        "", "a", ".", "@a", "q:a", "b::a", "*::a", "/", "|", ":", "-", "\u{A0}",
    ];
    let mut answers = Answers::default();
    for part in parts {
        for count in 0..=256 / part.len() {
            for end in ends {
                let path = part.repeat(count) + end;
                for kind in [0, 1] {
                    answers.take(kind, compared(kind, path.as_bytes(), b"p"));
                }
            }
        }
    }
    answers.assert_reasons_at_least(1);
}

#[test]
#[cfg_attr(
    not(oracle),
    ignore = "not compared: the original Rust is not there (FASTXML_SRC, ../shared/docs/src)"
)]
fn every_path_of_up_to_five_letters_gets_the_answer_of_the_original() {
    let mut answers = Answers::default();
    for length in 0..=5 {
        let all = 0..calls::count(&PATH_LETTERS, length);
        answers.add(compare_short_paths(length, all));
    }
    // Each as both kinds, and with three more texts of prefixes where there is a colon: of the 15^n
    // paths of n letters 14^n have none.
    let of_letters = |letters: usize| (0..=5).map(|length| letters.pow(length)).sum::<usize>();
    let with_colon = of_letters(15) - of_letters(14);
    assert_eq!(of_letters(15), 813_616);
    assert_eq!(answers.all(), 2 * (of_letters(15) + 3 * with_colon));
    answers.assert_reasons_at_least(50);
}

#[test]
#[cfg_attr(
    not(oracle),
    ignore = "not compared: the original Rust is not there (FASTXML_SRC, ../shared/docs/src)"
)]
fn every_text_of_prefixes_of_up_to_five_letters_declares_what_it_does_for_the_original() {
    let (mut passes, mut undeclared) = (0, 0);
    for length in 0..=5 {
        let all = 0..calls::count(&PREFIX_LETTERS, length);
        for prefixes in calls::texts_of(&PREFIX_LETTERS, length, all) {
            for path in ["p:a", "px:*", "@\u{E9}:a", "pp:a|p:b", "xml:a"] {
                match compared(1, path.as_bytes(), prefixes.as_bytes()) {
                    Checked::Pass => passes += 1,
                    answer => {
                        assert_eq!(answer, Checked::Reason(11));
                        undeclared += 1;
                    }
                }
            }
        }
    }
    assert_eq!(passes + undeclared, 5 * 9_331);
    assert!(
        passes > 9_331 + 1_000 && undeclared > 20_000,
        "{passes} passes, {undeclared} undeclared"
    );
}

#[test]
#[cfg_attr(
    not(oracle),
    ignore = "not compared: the original Rust is not there (FASTXML_SRC, ../shared/docs/src)"
)]
fn every_character_alone_in_a_name_and_behind_a_prefix_gets_the_answer_of_the_original() {
    let mut answers = Answers::default();
    for c in texts::scalars() {
        for path in [format!("{c}"), format!("a{c}a"), format!("a:{c}|a")] {
            answers.take(1, compared(1, path.as_bytes(), b"a"));
        }
    }
    assert_eq!(answers.all(), 3 * (0x110000 - 0x800));
}

#[test]
#[cfg_attr(
    not(oracle),
    ignore = "not compared: the original Rust is not there (FASTXML_SRC, ../shared/docs/src)"
)]
fn random_calls_get_the_answers_that_are_due() {
    let mut random = Random::new(0xCA11);
    let mut answers = Answers::default();
    let mut telling = [0; 5];
    let (most, count) = (10_000, streams::count(10_000));
    for _ in 0..20 * count {
        let call = calls::call(&mut random);
        let answer = compared(call.kind, &call.path, &call.prefixes);
        answers.take(call.kind, answer);
        let (path, prefixes) = (call.path.len(), call.prefixes.len());
        let met = [
            path == 255,
            path == 256,
            prefixes == 16_384,
            prefixes == 16_385,
            path > 100 && answer == Checked::Pass,
        ];
        for (count, met) in telling.iter_mut().zip(met) {
            *count += usize::from(met);
        }
    }
    if count == most {
        answers.assert_reasons_at_least(100);
        answers.assert_refusals_at_least(5_000);
        assert!(telling.iter().all(|&count| count > 1_000), "{telling:?}");
    }
}
