//! The counts of a session, packed and at their limits, against a plain reading of document 01.

use host::model::counts::{
    CELLS_MIN, Counts, EVENTS_MAX, Lengths, NAMES_MIN, Numbers, PATHS_MIN, Stage, fit,
};
use host::random::Random;
use host::store_cases::near;
use host::store_doors::{counts_fit, depth_of, pack, unpack};
use host::tally::Compared;

// ---- the packed number

#[test]
fn counts_within_their_limits_are_unpacked_as_they_were_packed() {
    let mut random = Random::new(0x9AC8);
    for _ in 0..100_000 {
        let counts = Counts {
            stage: random.below(128) as u32,
            scopes: random.below(32) as u32,
            selections: random.below(64) as u32,
            opened: near(&mut random, 8 * EVENTS_MAX),
        };
        let running = pack(counts);
        assert_eq!(running, counts.pack(), "{counts:?}");
        assert_eq!(unpack(running), counts);
    }
}

/// The end of document 01's run, and a number from `crates/session_spec/specs/Examples.antt`.
#[test]
fn listed_numbers_are_those_of_the_computed_runs() {
    let counts = |stage, scopes, selections, opened| Counts {
        stage,
        scopes,
        selections,
        opened,
    };
    let rows = [
        (0, counts(0, 0, 0, 0)),
        (262_210, counts(66, 0, 0, 1)),
        (266_372, counts(4, 1, 1, 1)),
    ];
    for (running, counts) in rows {
        assert_eq!(pack(counts), running);
        assert_eq!(unpack(running), counts);
    }
}

#[test]
fn any_number_is_unpacked_and_any_counts_are_packed_by_their_definition() {
    let mut random = Random::new(0x0A11);
    let mut too_many = 0;
    for _ in 0..100_000 {
        let running = random.number() >> random.below(64);
        assert_eq!(unpack(running), Counts::unpack(running), "{running}");
        let mut word = |limit: u64| near(&mut random, limit);
        let counts = Counts {
            stage: word(127) as u32,
            scopes: word(u32::MAX.into()) as u32,
            selections: word(u32::MAX.into()) as u32,
            opened: word(u32::MAX.into()),
        };
        assert_eq!(pack(counts), counts.pack(), "{counts:?}");
        too_many += usize::from(counts.opened > u32::MAX.into());
    }
    assert!(too_many > 10_000, "{too_many}");
}

#[test]
fn the_depth_at_a_stage_is_that_of_its_definition() {
    for stage in (0..300).chain([u32::MAX - 1, u32::MAX]) {
        assert_eq!(depth_of(stage), Stage::of(stage).depth(), "{stage}");
    }
    assert_eq!([0, 1, 2, 65, 66, 67].map(depth_of), [0, 0, 1, 64, 0, 66]);
}

// ---- limits

/// Numbers, lengths and counts that fit: at their limits, or at set-up.
fn fitting(random: &mut Random) -> (Numbers, Lengths, Counts) {
    let slack = |random: &mut Random| random.pick(&[0, 0, 1, 70_000]);
    let lengths = Lengths {
        definitions: slack(random),
        tuples: slack(random),
        reports: slack(random),
        names: NAMES_MIN + slack(random),
        scopes: 16 + slack(random),
        cells: CELLS_MIN + slack(random),
        paths: PATHS_MIN + slack(random),
    };
    let numbers = Numbers {
        events: random.pick(&[0, 1, 2, EVENTS_MAX]),
        running: random.number(),
        definitions: lengths.definitions as u64,
        tuples: lengths.tuples as u64,
        reports: lengths.reports as u64,
    };
    let counts = Counts {
        stage: random.pick(&[1, 2, 65, 66]),
        scopes: random.pick(&[0, 16]),
        selections: random.pick(&[0, 32]),
        opened: 8 * numbers.events,
    };
    if random.once_in(4) {
        let at_set_up = Numbers {
            running: 0,
            tuples: 0,
            reports: 0,
            ..numbers
        };
        return (at_set_up, lengths, Counts { stage: 0, ..counts });
    }
    (numbers, lengths, counts)
}

type Asked = (Numbers, Lengths, Counts);

/// All sixteen, each one less or one more.
fn one_off((numbers, lengths, counts): Asked, which: usize, more: bool) -> Asked {
    fn step(number: &mut u64, more: bool) {
        *number = if more {
            number.wrapping_add(1)
        } else {
            number.wrapping_sub(1)
        };
    }
    let (mut n, mut l, mut c) = (numbers, lengths, counts);
    let wide = |size: &mut usize| {
        *size = if more {
            *size + 1
        } else {
            size.wrapping_sub(1)
        }
    };
    let word = |word: &mut u32| {
        *word = if more {
            *word + 1
        } else {
            word.wrapping_sub(1)
        }
    };
    match which {
        0 => step(&mut n.events, more),
        1 => step(&mut n.running, more),
        2 => step(&mut n.definitions, more),
        3 => step(&mut n.tuples, more),
        4 => step(&mut n.reports, more),
        5 => wide(&mut l.definitions),
        6 => wide(&mut l.tuples),
        7 => wide(&mut l.reports),
        8 => wide(&mut l.names),
        9 => wide(&mut l.scopes),
        10 => wide(&mut l.cells),
        11 => wide(&mut l.paths),
        12 => word(&mut c.stage),
        13 => word(&mut c.scopes),
        14 => word(&mut c.selections),
        _ => step(&mut c.opened, more),
    }
    (n, l, c)
}

/// A case at the limits, and each of its sixteen numbers one less and one more.
#[test]
fn counts_fit_up_to_their_limits_and_not_one_past() {
    let mut random = Random::new(0xF17);
    let mut compared = Compared::default();
    let mut decides = [0; 16];
    for _ in 0..20_000 {
        let asked = fitting(&mut random);
        let (numbers, lengths, counts) = asked;
        assert!(fit(numbers, lengths, counts), "{asked:?}");
        compared.take(counts_fit(numbers, lengths, counts), true, asked);
        for (which, decides) in decides.iter_mut().enumerate() {
            for more in [false, true] {
                let asked = one_off(asked, which, more);
                let (numbers, lengths, counts) = asked;
                let due = fit(numbers, lengths, counts);
                compared.take(counts_fit(numbers, lengths, counts), due, asked);
                *decides += usize::from(!due);
            }
        }
    }
    compared.assert_each_at_least(100_000);
    assert!(decides.iter().all(|&count| count > 1_000), "{decides:?}");
}

/// Numbers far off, several at a time.
#[test]
fn counts_of_any_size_fit_as_by_a_plain_reading() {
    let mut random = Random::new(0xFA4);
    let mut compared = Compared::default();
    for _ in 0..200_000 {
        let (mut numbers, mut lengths, mut counts) = fitting(&mut random);
        let far = [0, 1, 1 << 31, 1 << 32, 1 << 61, u64::MAX];
        for _ in 0..random.below(3) {
            let value = random.pick(&far);
            match random.below(8) {
                0 => numbers.events = value,
                1 => numbers.tuples = value,
                2 => numbers.reports = value,
                3 => numbers.definitions = value,
                4 => counts.opened = value,
                5 => counts.stage = value as u32,
                6 => lengths.cells = value as usize,
                _ => lengths.tuples = value as usize,
            }
        }
        let due = fit(numbers, lengths, counts);
        let asked = (numbers, lengths, counts);
        compared.take(counts_fit(numbers, lengths, counts), due, asked);
    }
    compared.assert_each_at_least(50_000);
}
