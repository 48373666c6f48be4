//! Runs over buffers of records through the door: each against the record call on one frame after another,
//! at the door and in the plain reading of document 01, byte for byte. Listed buffers, and random streams
//! in pieces.

use host::made::{ee, es, id, one_run};
use host::model::buffers::take_frame;
use host::model::bytes::standing;
use host::model::counts::{EVENTS_MAX, Lengths};
use host::model::records::Record;
use host::random::Random;
use host::runs::{Run, compare_damaged, shown, through_buffers};
use host::streams::{self, AMPLE, Stream};
use host::tally::{Met, Seen};

// ---- listed buffers

/// A session just set up, with ample stores and areas of the least lengths.
fn set_up() -> Run {
    with(|_| ())
}

/// The same with something about it changed.
fn with(change: impl FnOnce(&mut Stream)) -> Run {
    let mut stream = Stream {
        lengths: AMPLE,
        tail: 0,
        fill: 0xEE,
        records: Vec::new(),
    };
    change(&mut stream);
    Run::set_up(&stream)
}

fn joined<'a>(records: impl IntoIterator<Item = &'a Record>) -> Vec<u8> {
    records.into_iter().flat_map(Record::bytes).collect()
}

/// Hands in a buffer, which must be answered so.
#[track_caller]
fn answers(run: &mut Run, buffer: &[u8], reply: u32, taken: usize) {
    let given = run.take_buffer(buffer);
    assert_eq!(given, Ok((reply, taken)), "{}", buffer.escape_ascii());
}

#[test]
fn an_empty_buffer_changes_nothing() {
    let mut run = set_up();
    let before = run.world.clone();
    answers(&mut run, b"", 0, 0);
    assert_eq!(run.world, before);
    let all = joined(&one_run());
    answers(&mut run, &all, 0, all.len());
    answers(&mut run, b"", 0, 0);
}

/// Each limit of what is open, and one past it: what ran out is the answer, and the records before it are taken.
#[test]
fn a_run_says_what_ran_out() {
    let unique = |selector| id(0, "u", None, selector, &["@id"]);
    let cases: [(Record, Vec<Vec<u8>>, Vec<u8>, u32); 3] = [
        (unique("x"), vec![vec![]; 64], vec![], 14),
        (unique("x"), vec![vec![0; 8]; 2], vec![0], 20),
        (
            unique(".//."),
            [vec![vec![0]], vec![vec![]; 31]].concat(),
            vec![],
            21,
        ),
    ];
    for (defined, most, past, number) in cases {
        let elements = most.iter().map(|numbers| es("e", numbers, &[]));
        let records: Vec<Record> = std::iter::once(defined).chain(elements).collect();
        let taken = joined(&records);
        answers(&mut set_up(), &taken, 0, taken.len());
        let more = [taken.clone(), joined([&es("e", &past, &[])])].concat();
        answers(&mut set_up(), &more, number, taken.len());
    }
}

/// Wherever document 01's run is cut, what is whole of the first piece is taken, and then the rest.
#[test]
fn a_buffer_may_be_cut_anywhere() {
    let all = joined(&one_run());
    let mut ends = vec![0];
    ends.extend(one_run().iter().scan(0, |end, record| {
        *end += record.bytes().len();
        Some(*end)
    }));
    for cut in 0..=all.len() {
        let whole = *ends.iter().rfind(|&&end| end <= cut).expect("0 is an end");
        let mut run = set_up();
        answers(&mut run, &all[..cut], 0, whole);
        answers(&mut run, &all[whole..], 0, all.len() - whole);
        assert_eq!(run.world.numbers.events, 10);
        assert_eq!(run.view(), Ok(1));
        answers(&mut run, &all, 11, 0);
    }
}

/// What stands before a refused record is taken, and what stands behind it is not handed in.
#[test]
fn a_refusal_ends_the_run() {
    let before = [es("t", &[], &[]), ee(0, "")];
    let taken = joined(&before).len();
    let refused: [(&[u8], u32); 7] = [
        (b"XX\0\0", 1),
        (b"FI\x01\0\0", 2),
        (b"EE\x04\0\0\x01\0\xFF", 3),
        (b"EE\x03\0\x03\0\0", 4),
        (b"EE\x03\0\0\0\0", 13),
        (b"ES\x08\0\0\0\x01\0t\x01\x09\0", 12),
        (b"ID\x0E\0\x01\x01\0k\0\x01\0r\x01\x03\0@id", 11),
    ];
    for (record, reply) in refused {
        let buffer = [&joined(&before), record, &joined(&before)].concat();
        let mut run = set_up();
        answers(&mut run, &buffer, reply, taken);
        assert_eq!(run.world.numbers.events, 2);
        answers(&mut run, &buffer[taken..], reply, 0);
        assert_eq!(run.world.numbers.events, 2);
        answers(&mut run, &buffer[taken + record.len()..], 0, taken);
        assert_eq!(run.world.numbers.events, 4);
    }
}

/// 16,384 bytes are waited for; a header that states one more is handed in without any of its body.
#[test]
fn a_header_that_states_too_much_is_handed_in_alone() {
    for body in [0, 1, 7, 16_384, 16_385] {
        let body = vec![0; body];
        let over = [b"EE\x01\x40", &body[..]].concat();
        answers(&mut set_up(), &over, 5, 0);
        answers(&mut set_up(), &[b"XX\xFF\xFF", &body[..]].concat(), 1, 0);
        let behind = [joined(&[es("t", &[], &[])]), over].concat();
        answers(&mut set_up(), &behind, 5, 11);
    }
    let most = [&b"EE\0\x40"[..], &[0; 16_384]].concat();
    for size in [4, 5, 16_387] {
        answers(&mut set_up(), &most[..size], 0, 0);
    }
    answers(&mut set_up(), &most, 2, 0);
    for size in 0..4 {
        answers(&mut set_up(), &b"EE\xFF\xFF"[..size], 0, 0);
    }
}

/// With an area that is too short a whole record is answered by 10, and what is not whole by 0.
#[test]
fn an_area_that_is_too_short_is_refused_where_a_record_is_whole() {
    let short: [fn(&mut Stream); 6] = [
        |it| it.lengths.paths -= 1,
        |it| it.lengths.names -= 1,
        |it| it.lengths.cells -= 1,
        |it| (it.lengths.scopes, it.tail) = (15, 11),
        |it| (it.lengths.scopes, it.tail) = (1, 0),
        |it| (it.lengths.scopes, it.tail) = (0, 0),
    ];
    let all = joined(&one_run());
    for shorten in short {
        let mut run = with(shorten);
        for size in [0, 1, 3, 4, 17] {
            answers(&mut run, &all[..size], 0, 0);
        }
        for size in [18, 19, all.len()] {
            answers(&mut run, &all[..size], 10, 0);
        }
        answers(&mut run, b"XX\xFF\xFF", 10, 0);
    }
}

/// Each store one byte too short for the run: the record that has no room is refused, once and again.
#[test]
fn a_store_that_is_full_ends_the_run() {
    let all = joined(&one_run());
    type Shorten = fn(&mut Lengths);
    let rows: [(Shorten, u32, u64); 4] = [
        (|it| it.definitions = 17, 18, 0),
        (|it| it.tuples = 12, 15, 3),
        (|it| it.reports = 17, 16, 5),
        (|it| it.reports = 35, 16, 7),
    ];
    for (shorten, reply, events) in rows {
        let mut run = with(|it| shorten(&mut it.lengths));
        let taken: usize = one_run()[..events as usize]
            .iter()
            .map(|record| record.bytes().len())
            .sum();
        answers(&mut run, &all, reply, taken);
        assert_eq!(run.world.numbers.events, events);
        answers(&mut run, &all[taken..], reply, 0);
    }
    let mut run = with(|it| {
        (it.lengths.definitions, it.lengths.tuples) = (18, 13);
        it.lengths.reports = 36;
    });
    answers(&mut run, &all, 0, all.len());
}

/// 19: the 1,000,001st record, in buffers of a thousand. The stores stay empty, so that each call is short.
#[test]
fn a_million_events_are_taken_and_not_one_more() {
    let mut run = with(|it| {
        (it.lengths.definitions, it.lengths.tuples) = (0, 0);
        it.lengths.reports = 0;
    });
    let pair = joined(&[es("t", &[], &[]), ee(0, "")]);
    let buffer = pair.repeat(500);
    let calls = EVENTS_MAX as usize / 1_000;
    for _ in 1..calls {
        answers(&mut run, &buffer, 0, buffer.len());
    }
    let behind = [&buffer[..], b"FI\0\0"].concat();
    answers(&mut run, &behind, 19, buffer.len());
    assert_eq!(run.world.numbers.events, EVENTS_MAX);
    answers(&mut run, &pair, 19, 0);
    answers(&mut run, &joined(&[id(0, "u", None, ".", &["."])]), 11, 0);
}

// ---- random streams

const STREAMS: u64 = 1_500;

#[test]
fn streams_in_pieces_are_answered_as_record_by_record() {
    let mut random = Random::new(0xB0FF);
    let mut met = Met::default();
    let count = streams::count(STREAMS);
    for number in 0..count {
        let stream = streams::numbered(0xB0FF, number);
        let pieces = streams::in_pieces(&mut random, &stream);
        if let Err(fault) = through_buffers(&pieces, &mut met) {
            panic!("{}", shown(&pieces, through_buffers, fault));
        }
    }
    if count == STREAMS {
        met.assert_runs_at_least(10);
    }
}

/// Reports with many vouchers: what a piece has marked counts for its own vouchers alone.
#[test]
fn reports_with_many_vouchers_are_answered_as_record_by_record() {
    let mut random = Random::new(0x1ED6E5);
    let mut met = Met::default();
    for _ in 0..streams::count(6) {
        let stream = streams::ledgers(&mut random);
        let pieces = streams::in_pieces(&mut random, &stream);
        if let Err(fault) = through_buffers(&pieces, &mut met) {
            panic!("{}", shown(&pieces, through_buffers, fault));
        }
    }
    assert!(met.fields > 100 * met.streams, "{} fields", met.fields);
}

// ---- damage between calls

/// The records behind the damage as one buffer, four times; each time behind the one that was refused.
fn hand_in_buffers(run: &mut Run, behind: &[Vec<u8>], seen: &mut Seen<u32>) -> Result<(), String> {
    let mut buffer = behind.concat();
    for _ in 0..4 {
        let (reply, taken) = run.take_buffer(&buffer)?;
        seen.take(reply);
        let refused = standing(&buffer[taken..], take_frame)
            .first()
            .map_or(0, |it| it.len());
        buffer.drain(..taken + refused);
    }
    Ok(())
}

#[test]
fn damaged_sessions_are_answered_as_by_the_model() {
    let count = streams::count(STREAMS);
    let seen = compare_damaged(0xDA3B, count, hand_in_buffers);
    if count == STREAMS {
        seen.assert_each_at_least([0, 2, 10, 11, 13, 14, 15, 16, 20, 21], 20);
    }
}
