//! test_is_utf8 against `std::str::from_utf8`, and test_char_at against `char_indices`.

use host::random::Random;
use host::tally::Compared;
use host::{doors, texts};

fn compare_with_std(compared: &mut Compared, text: &[u8]) {
    compared.take(
        doors::is_utf8(text),
        std::str::from_utf8(text).is_ok(),
        text,
    );
}

#[test]
fn is_utf8_is_from_utf8_on_all_texts_of_up_to_three_bytes() {
    let mut compared = Compared::default();
    compare_with_std(&mut compared, &[]);
    for a in 0..=0xFF {
        compare_with_std(&mut compared, &[a]);
        for b in 0..=0xFF {
            compare_with_std(&mut compared, &[a, b]);
            for c in 0..=0xFF {
                compare_with_std(&mut compared, &[a, b, c]);
            }
        }
    }
    // 128 characters of one byte, 1,920 of two and 61,440 of three, in every order that fits.
    let (one, two, three) = (128, 1_920, 61_440);
    let valid = 1 + one + (one * one + two) + (one * one * one + 2 * one * two + three);
    assert_eq!(compared.yes, valid);
    assert_eq!(compared.all(), 1 + 256 + 65_536 + 16_777_216);
}

#[test]
fn is_utf8_is_from_utf8_on_four_bytes_after_each_lead_byte_f0_to_f7() {
    let edges = [0x00, 0x7F, 0x80, 0x8F, 0x90, 0x9F, 0xA0, 0xBF, 0xC0, 0xFF];
    let dense: Vec<u8> = (0..=0xFF)
        .filter(|byte| byte % 4 == 1 || edges.contains(byte))
        .collect();
    let mut compared = Compared::default();
    for lead in 0xF0..=0xF7 {
        for second in 0..=0xFF {
            for &third in &dense {
                for &fourth in &dense {
                    compare_with_std(&mut compared, &[lead, second, third, fourth]);
                }
            }
        }
    }
    // F0 takes 48 second bytes, F1 to F3 take 64 each and F4 takes 16.
    let going_on = dense
        .iter()
        .filter(|byte| (0x80..=0xBF).contains(*byte))
        .count();
    assert_eq!(compared.yes, 256 * going_on * going_on);
    assert_eq!(compared.all(), 8 * 256 * dense.len() * dense.len());
}

#[test]
fn is_utf8_is_from_utf8_on_random_texts() {
    let mut random = Random::new(0x8629);
    let mut compared = Compared::default();
    for _ in 0..100_000 {
        let text = texts::valid(&mut random, 24).into_bytes();
        compare_with_std(&mut compared, &text);
        compare_with_std(&mut compared, &texts::damaged(&mut random, &text));
        compare_with_std(&mut compared, &texts::raw(&mut random, 12));
    }
    assert_eq!(compared.all(), 300_000);
    compared.assert_each_at_least(110_000);
}

#[test]
fn is_utf8_is_from_utf8_on_long_texts_with_a_fault_at_any_place() {
    let mut random = Random::new(0x1629);
    let mut compared = Compared::default();
    for _ in 0..200 {
        let text = texts::valid(&mut random, 400).into_bytes();
        compare_with_std(&mut compared, &text);
        for at in 0..text.len() {
            compare_with_std(&mut compared, &text[..at]);
            let mut changed = text.clone();
            changed[at] = random.byte();
            compare_with_std(&mut compared, &changed);
        }
    }
    compared.assert_each_at_least(30_000);
}

#[test]
fn char_at_decodes_every_character() {
    let mut count = 0;
    for c in texts::scalars() {
        let size = c.len_utf8();
        let alone = c.to_string().into_bytes();
        assert_eq!(
            doors::char_at(&alone, 0),
            (u32::from(c), size),
            "{c:?} alone"
        );
        let between = format!("a{c}\u{10FFFF}").into_bytes();
        assert_eq!(doors::char_at(&between, 0), (0x61, 1), "before {c:?}");
        assert_eq!(
            doors::char_at(&between, 1),
            (u32::from(c), size),
            "{c:?} between"
        );
        assert_eq!(
            doors::char_at(&between, 1 + size),
            (0x10FFFF, 4),
            "after {c:?}"
        );
        count += 1;
    }
    assert_eq!(count, 0x110000 - 0x800);
}

#[test]
fn char_at_is_char_indices_on_random_texts() {
    let mut random = Random::new(0xC4A2);
    let mut by_size = [0; 5];
    for _ in 0..50_000 {
        let text = texts::valid(&mut random, 24);
        for (at, c) in text.char_indices() {
            let expected = (u32::from(c), c.len_utf8());
            assert_eq!(
                doors::char_at(text.as_bytes(), at),
                expected,
                "{text:?} at {at}"
            );
            by_size[c.len_utf8()] += 1;
        }
    }
    assert!(
        by_size[1..].iter().all(|&count| count > 50_000),
        "{by_size:?}"
    );
}

#[test]
fn char_at_is_zero_of_size_one_past_the_end() {
    let mut random = Random::new(0xE2D);
    for _ in 0..1_000 {
        let text = texts::valid(&mut random, 6).into_bytes();
        for past in [0, 1, 2, 3, 4, 100] {
            assert_eq!(
                doors::char_at(&text, text.len() + past),
                (0, 1),
                "{text:02X?} + {past}"
            );
            assert_eq!(
                doors::char_at(&text, usize::MAX - past),
                (0, 1),
                "{text:02X?}"
            );
        }
    }
}
