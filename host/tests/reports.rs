//! The report store: one report more, and what any bytes hold, against a plain reading of document 01.

use host::model::bytes::{put_four, standing};
use host::model::definitions::in_mask;
use host::model::reports::{RP, Rp, is_told, read, store};
use host::random::Random;
use host::shrink::{shorter, shown, shrunk};
use host::store_cases::{assert_appends, cut_or_grown, damaged, place, report};
use host::store_doors::{append_report, reports_read, told};
use host::tally::{Compared, Seen};
use host::texts;

/// The reports of document 01's run, as `crates/session_spec/specs/Examples.antt` computes them.
#[test]
fn the_bytes_of_a_report_are_those_of_its_definition() {
    let first = Rp {
        kind: 4,
        constraint: 0,
        field: 0,
        scope: 1,
        event: 6,
        tuple: 1,
    };
    let second = Rp {
        kind: 3,
        event: 8,
        tuple: 0,
        ..first
    };
    let due = [
        82, 80, 4, 0, 0, 0, 1, 0, 0, 0, 6, 0, 0, 0, 1, 0, 0, 0, 82, 80, 3, 0, 0, 0, 1, 0, 0, 0, 8,
        0, 0, 0, 0, 0, 0, 0,
    ];
    let mut given = [0; 2 * RP];
    let used = append_report(&mut given, 0, first);
    let used = append_report(&mut given, used, second);
    assert_eq!((used, given), (36, due));
    assert_eq!(store(&[first, second]), due);
}

// ---- one more

/// Used lengths within the store, at its end, past it, and so far off that a sum with them would wrap.
#[test]
fn a_report_is_appended_where_it_fits_and_else_nothing_changes() {
    let mut random = Random::new(0xA99E);
    let (mut appended, mut kept) = (0, 0);
    for _ in 0..60_000 {
        let before = texts::raw(&mut random, 80);
        let used = place(&mut random, before.len(), RP);
        let report = Rp {
            kind: random.byte(),
            constraint: random.byte(),
            field: random.byte(),
            scope: random.number() as u32,
            event: random.number() as u32,
            tuple: random.number() as u32,
        };
        let door = |store: &mut [u8]| append_report(store, used, report);
        match assert_appends(&before, used, &report.bytes(), door) {
            true => appended += 1,
            false => kept += 1,
        }
    }
    assert!(appended > 5_000 && kept > 5_000, "{appended} and {kept}");
}

// ---- what the store holds

/// The used bytes of a store, whole or damaged.
fn used(random: &mut Random) -> Vec<u8> {
    let constraints = random.pick(&[1, 3, 32, 40]);
    let count = random.pick(&[0, 1, 2, 7]);
    let reports: Vec<Rp> = (0..count).map(|_| report(random, constraints)).collect();
    let bytes = store(&reports);
    match random.below(4) {
        0 => cut_or_grown(random, &bytes),
        1 => damaged(random, &bytes),
        _ => bytes,
    }
}

type Asked = (Vec<u8>, u32, usize);

fn answers((used, named, constraints): &Asked) -> [(bool, bool); 2] {
    [
        (told(used, *named), is_told(used, *named)),
        (
            reports_read(used, *constraints),
            read(used, *constraints).is_some(),
        ),
    ]
}

fn differs(asked: &Asked) -> bool {
    answers(asked).iter().any(|(given, due)| given != due)
}

fn smaller((used, named, constraints): &Asked) -> Box<dyn Iterator<Item = Asked> + '_> {
    let (named, constraints) = (*named, *constraints);
    let bits = (0..32).map(move |bit| named & !(1 << bit));
    let masks = bits.filter(move |&fewer| fewer != named);
    let masks = masks.map(move |named| (used.clone(), named, constraints));
    Box::new(
        shorter(used)
            .map(move |used| (used, named, constraints))
            .chain(masks),
    )
}

#[track_caller]
fn compared(asked: Asked) -> [bool; 2] {
    if differs(&asked) {
        let small = shrunk(asked, smaller, differs);
        let [told, read] = answers(&small);
        let (used, named, constraints) = &small;
        panic!(
            "given and due: told {told:?}, read {read:?}\nset {named:#b}, {constraints} constraints, {}",
            shown(used)
        );
    }
    answers(&asked).map(|(_, due)| due)
}

#[test]
fn any_bytes_are_reports_and_tell_of_constraints_as_by_a_plain_reading() {
    let mut random = Random::new(0x4E90);
    let (mut told, mut read) = (Compared::default(), Compared::default());
    let mut standing_before_damage = 0;
    for _ in 0..60_000 {
        let used = used(&mut random);
        let named = match random.below(4) {
            0 => u32::MAX,
            1 => 1 << random.below(32),
            2 => random.number() as u32,
            _ => 0,
        };
        let constraints = random.pick(&[0, 1, 3, 32, 255, 256, usize::MAX]);
        let [is_told, is_read] = compared((used.clone(), named, constraints));
        told.take(is_told, is_told, named);
        read.take(is_read, is_read, constraints);
        standing_before_damage += usize::from(is_told && !is_read);
    }
    told.assert_each_at_least(5_000);
    read.assert_each_at_least(10_000);
    assert!(standing_before_damage > 1_000, "{standing_before_damage}");
}

/// Each byte of a report made each other byte: the mark, the zero byte and the constraint have a say.
#[test]
fn each_byte_of_a_report_counts_as_it_does_by_a_plain_reading() {
    let report = Rp {
        kind: 6,
        constraint: 5,
        field: 0,
        scope: 0,
        event: 3,
        tuple: 0,
    };
    let bytes = store(&[report, report]);
    let mut seen = Seen::default();
    for at in 0..bytes.len() {
        for byte in 0..=255 {
            let mut bytes = bytes.clone();
            bytes[at] = byte;
            seen.take(compared((bytes, 1 << 5, 6)));
        }
    }
    // Of the first report, three bytes end the store and a fourth is of no defined constraint; of the
    // second, all four leave the first as it is.
    seen.assert_each_at_least([[false, false]], 3 * 255);
    seen.assert_each_at_least([[true, false]], 3 * 255 + 2 * 250);
    for at in 0..RP {
        assert_eq!(
            compared((bytes[..at].to_vec(), 1 << 5, 6)),
            [false, at == 0]
        );
        assert_eq!(
            compared((bytes[..RP + at].to_vec(), 1 << 5, 6)),
            [true, at == 0]
        );
    }
}

/// A full store of 65,536 bytes: the last report has a say, and so has a byte behind it.
#[test]
fn the_last_report_of_a_full_store_counts() {
    let count = 65_536 / RP;
    let blank = Rp {
        kind: 1,
        constraint: 0,
        field: 0,
        scope: 0,
        event: 0,
        tuple: 0,
    };
    let mut reports = vec![blank; count];
    assert_eq!(compared((store(&reports), 1, 1)), [false, true]);
    reports[count - 1].kind = 6;
    assert_eq!(compared((store(&reports), 1, 1)), [true, true]);
    reports[count - 1].constraint = 1;
    assert_eq!(compared((store(&reports), 1, 1)), [false, false]);
    let mut bytes = store(&reports);
    put_four(&mut bytes, 0);
    assert_eq!(compared((bytes.clone(), 2, 2)), [true, false]);
    assert_eq!(standing(&bytes, Rp::take).len(), count);
}

/// A constraint number past 31 is in no set.
#[test]
fn a_set_has_the_constraints_below_32() {
    for constraint in 0..=255 {
        let mut reports = [Rp {
            kind: 6,
            constraint,
            field: 0,
            scope: 0,
            event: 1,
            tuple: 0,
        }];
        let bytes = store(&reports);
        assert_eq!(told(&bytes, u32::MAX), constraint < 32);
        for bit in 0..32 {
            assert_eq!(told(&bytes, 1 << bit), constraint == bit);
            assert_eq!(in_mask(1 << bit, constraint), constraint == bit);
        }
        reports[0].kind = 5;
        assert!(!told(&store(&reports), u32::MAX));
    }
}
