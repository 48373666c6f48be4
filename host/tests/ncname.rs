//! test_name_start, test_name_char and test_is_ncname against the fifth edition, written out.

use host::random::Random;
use host::tally::Compared;
use host::{doors, ncname, texts};

fn compare_with_written_out(compared: &mut Compared, text: &[u8]) {
    compared.take(doors::is_ncname(text), ncname::is_ncname_bytes(text), text);
}

#[test]
fn name_start_and_name_char_are_the_written_out_ranges_on_every_code_point() {
    let (mut starts, mut characters) = (Compared::default(), Compared::default());
    for code in 0..=0x10FFFF {
        starts.take(doors::name_start(code), ncname::name_start(code), code);
        characters.take(doors::name_char(code), ncname::name_char(code), code);
    }
    // The sizes of the standard's ranges, summed by hand.
    assert_eq!((starts.yes, characters.yes), (971_505, 971_632));
}

#[test]
fn name_start_and_name_char_are_false_above_the_last_code_point() {
    let just_above = 0x110000..=0x120000;
    // A letter with a bit set that a narrower number would lose.
    let widened = (21..32).map(|bit| (1 << bit) | u32::from('a'));
    for code in just_above.chain(widened).chain([0x7FFF_FFFF, u32::MAX]) {
        assert!(!doors::name_start(code), "name start {code:X}");
        assert!(!doors::name_char(code), "name character {code:X}");
    }
}

#[test]
fn is_ncname_is_the_written_out_test_on_every_code_point_first_and_second() {
    let (mut first, mut second) = (Compared::default(), Compared::default());
    for code in 0..=0x10FFFF {
        let character = texts::encoded(code);
        compare_with_written_out(&mut first, &character);
        compare_with_written_out(&mut first, &[&character, b"n".as_slice()].concat());
        compare_with_written_out(&mut second, &[b"n", character.as_slice()].concat());
        compare_with_written_out(&mut second, &[b"n", character.as_slice(), b"n"].concat());
    }
    assert_eq!((first.yes, second.yes), (2 * 971_505, 2 * 971_632));
    assert_eq!(first.all(), 2 * 0x110000);
    assert_eq!(second.all(), 2 * 0x110000);
}

#[test]
fn is_ncname_is_false_on_surrogates_in_three_bytes() {
    for code in 0xD800..=0xDFFF {
        let surrogate = texts::encoded(code);
        assert!(std::str::from_utf8(&surrogate).is_err());
        assert!(!doors::is_ncname(&surrogate), "{code:X}");
        assert!(
            !doors::is_ncname(&[b"n", surrogate.as_slice()].concat()),
            "{code:X}"
        );
    }
}

/// A text whose characters are mostly those of names.
fn near_name(random: &mut Random) -> String {
    let parts = "aZ_-.7:\u{B7}\u{E9}\u{300}\u{4E2D}\u{10400}";
    let count = random.below(10);
    let mut text: String = (0..count).map(|_| random.character(parts)).collect();
    if random.once_in(4) {
        text.push(texts::scalar(random));
    }
    text
}

#[test]
fn is_ncname_is_the_written_out_test_on_random_texts() {
    let mut random = Random::new(0xACE);
    let mut compared = Compared::default();
    for _ in 0..100_000 {
        compare_with_written_out(&mut compared, near_name(&mut random).as_bytes());
        compare_with_written_out(&mut compared, texts::valid(&mut random, 4).as_bytes());
    }
    compared.assert_each_at_least(25_000);
}

#[test]
fn is_ncname_is_false_on_names_damaged_in_their_encoding() {
    let mut random = Random::new(0xBAD);
    let mut compared = Compared::default();
    let mut broken = 0;
    for _ in 0..100_000 {
        let whole = near_name(&mut random);
        let text = texts::damaged(&mut random, whole.as_bytes());
        compare_with_written_out(&mut compared, &text);
        if std::str::from_utf8(&text).is_err() {
            assert!(!doors::is_ncname(&text), "{text:02X?}");
            broken += 1;
        }
    }
    assert!(broken > 25_000, "{broken} broken");
    compared.assert_each_at_least(5_000);
}

#[test]
fn is_ncname_is_false_with_a_colon_at_any_place() {
    let name = "n\u{E9}\u{4E2D}\u{10400}me";
    assert!(doors::is_ncname(name.as_bytes()));
    for at in (0..=name.len()).filter(|&at| name.is_char_boundary(at)) {
        let (before, after) = name.split_at(at);
        let text = format!("{before}:{after}");
        assert!(!doors::is_ncname(text.as_bytes()), "{text}");
    }
}

#[test]
fn is_ncname_is_false_on_the_empty_text_and_with_a_first_character_that_only_goes_on() {
    assert!(!doors::is_ncname(b""));
    for first in [
        "0", "9", "-", ".", "\u{B7}", "\u{300}", "\u{36F}", "\u{203F}", "\u{2040}",
    ] {
        assert!(
            !doors::is_ncname(format!("{first}a").as_bytes()),
            "{first}a"
        );
        assert!(doors::is_ncname(format!("a{first}").as_bytes()), "a{first}");
    }
}
