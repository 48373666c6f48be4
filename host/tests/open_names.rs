//! The names of the open elements in their area, against a plain reading of document 01.

use host::model::names::{self, NAME, Name, after_colon};
use host::random::Random;
use host::shrink::{shorter, shown, shrunk};
use host::store_cases::{assert_left, lent, name, text};
use host::store_doors::{names_read, write_name};
use host::tally::Compared;
use host::texts;

/// Places with names in them, and a part of a place behind.
fn area(random: &mut Random) -> Vec<u8> {
    let count = random.below(5);
    let mut area: Vec<u8> = (0..count).flat_map(|_| name(random).bytes()).collect();
    let behind = random.pick(&[0, 0, 1, 2, 256, 257, 258, 259, 300, 513]);
    area.extend((0..behind).map(|_| random.pick(&[0, 0, 0, 1, 255])));
    area
}

/// One half of a place, most often the bytes of its length.
fn damage(random: &mut Random, area: &mut [u8]) {
    let half = NAME / 2 * random.below(2 * area.len() / NAME + 1);
    let within = random.pick(&[0, 0, 1, 1, 2, 200]);
    let byte = random.pick(&[0, 1, 2, 254, 255]);
    if let Some(there) = area.get_mut(half + within) {
        *there = byte;
    }
}

type Asked = (Vec<u8>, u32);

fn differs((area, depth): &Asked) -> bool {
    names_read(area, *depth) != names::read(area, *depth).is_some()
}

fn smaller((area, depth): &Asked) -> Box<dyn Iterator<Item = Asked> + '_> {
    let depth = *depth;
    let fewer = (0..depth.min(70)).map(|depth| (area.clone(), depth));
    Box::new(fewer.chain(shorter(area).map(move |area| (area, depth))))
}

#[track_caller]
fn compared(area: Vec<u8>, depth: u32) -> bool {
    let asked = (area, depth);
    if differs(&asked) {
        let (area, depth) = shrunk(asked, smaller, differs);
        let given = names_read(&area, depth);
        panic!("{given} for {depth} names in {}", shown(&area));
    }
    names::read(&asked.0, depth).is_some()
}

#[test]
fn names_read_where_each_of_their_halves_holds_a_text() {
    let mut random = Random::new(0x4A3E);
    let mut read = Compared::default();
    for _ in 0..30_000 {
        let mut area = area(&mut random);
        for _ in 0..random.below(3) {
            damage(&mut random, &mut area);
        }
        let there = (area.len() / NAME) as u32;
        let depth = random.pick(&[there, there, there + 1, 1, 0, 65, u32::MAX]);
        let due = compared(area.clone(), depth);
        read.take(names_read(&area, depth), due, depth);
    }
    read.assert_each_at_least(8_000);
}

/// Bytes past the texts do not count, but a length that runs past its half does.
#[test]
fn the_lengths_of_a_half_are_asked_for_both_of_its_bytes() {
    let mut reads = 0;
    for low in 0..=255 {
        for high in [0, 1, 2, 255] {
            let mut place = vec![9; NAME];
            place[..2].copy_from_slice(&[3, 0]);
            place[NAME / 2..NAME / 2 + 2].copy_from_slice(&[low, high]);
            reads += usize::from(compared(place.clone(), 1));
            place.rotate_left(NAME / 2);
            reads += usize::from(compared(place, 1));
        }
    }
    assert_eq!(reads, 2 * 256);
    let shortest = vec![0; NAME / 2 + 2];
    assert!(compared(shortest.clone(), 1));
    assert!(!compared(shortest[1..].to_vec(), 1));
}

/// As many open elements as may be.
#[test]
fn sixty_four_names_read_and_each_of_them_counts() {
    let mut random = Random::new(0x4064);
    let area: Vec<u8> = (0..64).flat_map(|_| name(&mut random).bytes()).collect();
    assert!(compared(area.clone(), 64));
    assert!(!compared(area.clone(), 65));
    for place in 0..64 {
        for half in [0, NAME / 2] {
            let mut area = area.clone();
            area[NAME * place + half + 1] = 1;
            assert!(!compared(area.clone(), 64));
            assert!(compared(area, place as u32));
        }
    }
}

// ---- writing

/// A qualified name: with no colon, one or several, and of any length.
fn qualified(random: &mut Random) -> Vec<u8> {
    let local = long_or_short(random);
    let before = match random.below(5) {
        0 => b"p:".to_vec(),
        1 => b"a:b:".to_vec(),
        2 => [vec![b'p'; 300], b":".to_vec()].concat(),
        3 => text(random, 255),
        _ => vec![],
    };
    [before, local].concat()
}

fn long_or_short(random: &mut Random) -> Vec<u8> {
    match random.below(5) {
        0 => vec![b'n'; random.pick(&[254, 255, 256, 257, 600])],
        1 => texts::raw(random, 12),
        _ => text(random, 255),
    }
}

#[test]
fn a_name_is_written_whole_behind_the_others_or_not_at_all() {
    let mut random = Random::new(0x3417E);
    let (mut written, mut kept) = (0, 0);
    for _ in 0..30_000 {
        let before = area(&mut random);
        let there = (before.len() / NAME) as u32;
        let depth = random.pick(&[0, there.saturating_sub(1), there, 3, u32::MAX]);
        let (space, qualified) = (long_or_short(&mut random), qualified(&mut random));
        let given = lent(&before, |area| {
            write_name(area, depth, &space, &qualified);
        });
        let mut due = before.clone();
        names::write_behind(&mut due, depth, &Name::of(&space, &qualified));
        assert_left(&given, &due, || {
            let (space, name, length) = (shown(&space), shown(&qualified), before.len());
            format!("namespace {space}, name {name}, behind {depth} in {length} bytes")
        });
        match due == before {
            true => kept += 1,
            false => written += 1,
        }
    }
    assert!(written > 5_000 && kept > 5_000, "{written} and {kept}");
}

#[test]
fn a_name_is_read_back_as_it_was_written() {
    let rows: [(&[u8], &[u8], &[u8]); 6] = [
        (b"", b"a", b"a"),
        (b"u", b"p:a", b"a"),
        (b"u", b"p:q:ab", b"ab"),
        (b"urn:x", b":", b""),
        (b"u", b"", b""),
        (b"u", b"a:", b""),
    ];
    for (space, qualified, local) in rows {
        assert_eq!(after_colon(qualified), local);
        let mut area = vec![0xEE; 2 * NAME];
        write_name(&mut area, 1, space, qualified);
        area.drain(..NAME);
        let due = Name {
            space: space.into(),
            local: local.into(),
        };
        assert_eq!(names::read(&area, 1), Some(vec![due]));
    }
}
