//! test_same against `==`, the comparison of names against a plain count, and the numbers in bytes against
//! `from_le_bytes` and `to_le_bytes`.

use host::doors;
use host::identity::{Compared, compare_names};
use host::random::Random;

/// Places around the end of a text, and places so far off that a sum with them would wrap.
fn places(len: usize) -> impl Iterator<Item = usize> {
    let far = (0..=8).map(|back| usize::MAX - back);
    let widened = [1 << 16, 1 << 31, 1 << 32, 1 << 63].map(|bit: usize| bit + len / 2);
    (0..=len + 8).chain(far).chain(widened)
}

fn random_bytes(random: &mut Random, len: usize) -> Vec<u8> {
    (0..len).map(|_| random.byte()).collect()
}

/// The `N` bytes at a place, with 0 for those past the end.
fn bytes_at<const N: usize>(text: &[u8], at: usize) -> [u8; N] {
    std::array::from_fn(|i| {
        let place = at.checked_add(i);
        place
            .and_then(|place| text.get(place))
            .copied()
            .unwrap_or(0)
    })
}

/// The text with the bytes written at a place, or unchanged where they do not fit.
fn written(text: &[u8], at: usize, bytes: &[u8]) -> Vec<u8> {
    let mut text = text.to_vec();
    let end = at.checked_add(bytes.len());
    if let Some(part) = end.and_then(|end| text.get_mut(at..end)) {
        part.copy_from_slice(bytes);
    }
    text
}

/// The comparison of two names as document 02 words it: the equal pairs at the end, counted from the last one back, and the
/// first unequal one.
fn compared(a: &[u8], b: &[u8]) -> Compared {
    let same = a == b;
    if a.len() != b.len() {
        return Compared { same, pairs: 0 };
    }
    let pairs = a.iter().rev().zip(b.iter().rev());
    let equal = pairs.take_while(|(x, y)| x == y).count();
    Compared {
        same,
        pairs: (equal + usize::from(!same)) as u64,
    }
}

#[test]
fn names_are_compared_from_the_end_on_all_pairs_of_short_texts() {
    let mut all: Vec<Vec<u8>> = vec![vec![]];
    for len in 0..6 {
        let longest: Vec<Vec<u8>> = all.iter().filter(|t| t.len() == len).cloned().collect();
        for text in longest {
            all.extend([b'a', b'b'].map(|byte| [text.as_slice(), &[byte]].concat()));
        }
    }
    assert_eq!(all.len(), 127);
    let mut counts = [0; 7];
    for a in &all {
        for b in &all {
            let answer = compare_names(a, b);
            assert_eq!(answer, compared(a, b), "{a:02X?} {b:02X?}");
            counts[answer.pairs as usize] += 1;
        }
    }
    assert!(counts.iter().all(|&n| n > 0), "pairs of bytes: {counts:?}");
}

#[test]
fn names_are_compared_from_the_end_on_random_texts() {
    let mut random = Random::new(0xC04);
    let mut met = [0; 3];
    for _ in 0..20_000 {
        let len = random.below(256);
        let a = random_bytes(&mut random, len);
        let mut b = a.clone();
        match random.below(4) {
            0 => b = random_bytes(&mut random, len),
            1 if len > 0 => b[random.below(len)] ^= 1 << random.below(8),
            2 => b.truncate(random.below(len + 1)),
            _ => {}
        }
        let answer = compare_names(&a, &b);
        assert_eq!(answer, compared(&a, &b), "{a:02X?} {b:02X?}");
        met[if a.len() != b.len() {
            0
        } else {
            1 + usize::from(answer.same)
        }] += 1;
    }
    assert!(
        met.iter().all(|&n| n > 1_000),
        "other lengths, unequal, equal: {met:?}"
    );
}

#[test]
fn same_is_equality_on_all_pairs_of_short_texts() {
    let alphabet = [0x00, 0x01, 0x80, 0xFF];
    let mut all: Vec<Vec<u8>> = vec![vec![]];
    for len in 0..3 {
        let longest: Vec<Vec<u8>> = all.iter().filter(|t| t.len() == len).cloned().collect();
        for text in longest {
            all.extend(alphabet.map(|byte| [text.as_slice(), &[byte]].concat()));
        }
    }
    assert_eq!(all.len(), 1 + 4 + 16 + 64);
    for a in &all {
        for b in &all {
            assert_eq!(doors::same(a, b), a == b, "{a:02X?} {b:02X?}");
        }
    }
}

#[test]
fn same_sees_a_difference_at_any_place_and_in_length() {
    let mut random = Random::new(0x5A3E);
    let mut differences = 0;
    for len in 0..300 {
        let text = random_bytes(&mut random, len);
        assert!(doors::same(&text, &text.clone()), "{len} bytes");
        assert!(doors::same(&text, &text), "{len} bytes with themselves");
        for at in 0..len {
            let mut other = text.clone();
            other[at] ^= 1 << random.below(8);
            assert!(!doors::same(&text, &other), "{len} bytes, place {at}");
            assert!(
                !doors::same(&text, &text[..at]),
                "{len} bytes and the first {at}"
            );
            assert!(
                !doors::same(&text[..at], &text),
                "the first {at} and {len} bytes"
            );
            differences += 1;
        }
    }
    assert_eq!(differences, 300 * 299 / 2);
}

#[test]
fn two_at_is_from_le_bytes_with_zeros_past_the_end() {
    let mut random = Random::new(0x20A7);
    for len in 0..40 {
        let text = random_bytes(&mut random, len);
        for at in places(len) {
            let expected = usize::from(u16::from_le_bytes(bytes_at(&text, at)));
            assert_eq!(doors::two_at(&text, at), expected, "{text:02X?} at {at}");
        }
    }
}

#[test]
fn four_at_is_from_le_bytes_with_zeros_past_the_end() {
    let mut random = Random::new(0x40A7);
    for len in 0..40 {
        let text = random_bytes(&mut random, len);
        for at in places(len) {
            let expected = u32::from_le_bytes(bytes_at(&text, at));
            assert_eq!(doors::four_at(&text, at), expected, "{text:02X?} at {at}");
        }
    }
}

/// Lends the middle of a store to a writer and compares the whole store, so that a write outside
/// would show.
fn compare_write(store: &[u8], len: usize, at: usize, bytes: &[u8], put: impl Fn(&mut [u8])) {
    let guard = 16;
    let mut store = store[..guard + len + guard].to_vec();
    let (before, lent, after) = (
        store[..guard].to_vec(),
        written(&store[guard..guard + len], at, bytes),
        store[guard + len..].to_vec(),
    );
    put(&mut store[guard..guard + len]);
    let expected = [before, lent, after].concat();
    assert_eq!(store, expected, "{bytes:02X?} at {at} of {len}");
}

#[test]
fn put_two_writes_to_le_bytes_and_nothing_else() {
    let mut random = Random::new(0x2707);
    let store = random_bytes(&mut random, 80);
    for len in 0..40 {
        for at in places(len) {
            for value in [0, 0xFF, 0xFF00, 0xFFFF, random.number() as u16] {
                let put = |lent: &mut [u8]| doors::put_two(lent, at, value);
                compare_write(&store, len, at, &value.to_le_bytes(), put);
            }
        }
    }
}

#[test]
fn put_four_writes_to_le_bytes_and_nothing_else() {
    let mut random = Random::new(0x4707);
    let store = random_bytes(&mut random, 80);
    for len in 0..40 {
        for at in places(len) {
            for value in [0, 0xFF, 0xFFFF_0000, 0xFFFF_FFFF, random.number() as u32] {
                let put = |lent: &mut [u8]| doors::put_four(lent, at, value);
                compare_write(&store, len, at, &value.to_le_bytes(), put);
            }
        }
    }
}

#[test]
fn two_at_reads_back_every_number_that_put_two_wrote() {
    let mut store = [0xAA; 5];
    for value in 0..=u16::MAX {
        doors::put_two(&mut store, 2, value);
        assert_eq!(doors::two_at(&store, 2), usize::from(value));
    }
    assert_eq!(store, [0xAA, 0xAA, 0xFF, 0xFF, 0xAA]);
}

#[test]
fn four_at_reads_back_the_numbers_that_put_four_wrote() {
    let mut random = Random::new(0x4B4B);
    let mut store = [0xAA; 7];
    let one_bit = (0..32).map(|bit| 1 << bit);
    let random_ones = (0..100_000).map(|_| random.number() as u32);
    for value in one_bit.chain(random_ones).chain([u32::MAX]) {
        doors::put_four(&mut store, 2, value);
        assert_eq!(doors::four_at(&store, 2), value);
    }
    assert_eq!(store, [0xAA, 0xAA, 0xFF, 0xFF, 0xFF, 0xFF, 0xAA]);
}
