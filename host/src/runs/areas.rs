//! Request U11: the same stream through the door over other stores and areas of the same lengths, with a path area of
//! 1,024 bytes and with one of 16,384, each full of something else. All replies, the numbers after each, and the
//! used bytes of the stores must be the same; what stands behind 1,024 bytes of the path area stays.

use crate::identity::{Numbers, PATHS_MIN, Session, Stores};
use crate::model::buffers::take_frame;
use crate::store_cases::difference;
use crate::streams::Stream;

/// What the path area had to have formerly.
const FORMER_PATHS_MIN: usize = 16_384;

/// A reply, the bytes taken, and the numbers after it.
type Answer = (u32, usize, Numbers);

/// Hands a stream to a session.
type HandIn = fn(&mut Session, &Stream) -> Vec<Answer>;

/// What differs, if anything does.
pub fn compare(stream: &Stream, hand_in: HandIn) -> Result<(), String> {
    let (first, answers) = driven(stream, PATHS_MIN, stream.fill, hand_in)?;
    for (paths, fill) in [(PATHS_MIN, 0xC3), (FORMER_PATHS_MIN, 0x3C)] {
        let (other, others) = driven(stream, paths, fill, hand_in)?;
        let of = format!("with {paths} bytes of path area, all full of {fill:#x}");
        if answers != others {
            let at = answers.iter().zip(&others).take_while(|(a, b)| a == b);
            let at = at.count();
            let (due, given) = (answers.get(at), others.get(at));
            return Err(format!("{of}: call {at} {given:?}, and {due:?} is due"));
        }
        for (name, due, given) in [
            ("definition store", used(&first, 0), used(&other, 0)),
            ("tuple store", used(&first, 1), used(&other, 1)),
            ("report store", used(&first, 2), used(&other, 2)),
        ] {
            if due != given {
                return Err(format!("{of}: {name}: {}", difference(given, due)));
            }
        }
    }
    Ok(())
}

/// The stream through the door, over all that is lent full of one byte.
fn driven(
    stream: &Stream,
    paths: usize,
    fill: u8,
    hand_in: HandIn,
) -> Result<(Session, Vec<Answer>), String> {
    let lengths = stream.lengths;
    let mut session = Session::set_up(Stores {
        definitions: vec![fill; lengths.definitions],
        tuples: vec![fill; lengths.tuples],
        reports: vec![fill; lengths.reports],
        paths: vec![fill; paths],
        scopes: vec![fill; stream.scope_list()],
        names: vec![fill; lengths.names],
        cells: vec![fill; lengths.cells],
    });
    let answers = hand_in(&mut session, stream);
    let behind = &session.stores.paths[PATHS_MIN..];
    match behind.iter().all(|&byte| byte == fill) {
        true => Ok((session, answers)),
        false => Err("path area: a write behind 1,024 bytes".into()),
    }
}

/// Record by record.
pub fn by_records(session: &mut Session, stream: &Stream) -> Vec<Answer> {
    let mut hand_in = |record: &Vec<u8>| {
        let reply = session.record(record).number();
        (reply, record.len(), session.numbers)
    };
    stream.records.iter().map(&mut hand_in).collect()
}

/// The records as pieces of a buffer: again behind each record that is refused, and with more behind what is not
/// whole.
pub fn by_buffers(session: &mut Session, stream: &Stream) -> Vec<Answer> {
    let mut answers = Vec::new();
    let mut buffer = Vec::new();
    for piece in &stream.records {
        buffer.extend(piece);
        loop {
            let (reply, taken) = session.run(&buffer);
            answers.push((reply.number(), taken, session.numbers));
            buffer.drain(..taken);
            if reply.number() == 0 {
                break;
            }
            let refused = take_frame(&mut &buffer[..]).map_or(buffer.len(), <[u8]>::len);
            buffer.drain(..refused);
        }
    }
    answers
}

/// The used bytes of the definition, tuple or report store.
fn used(session: &Session, store: usize) -> &[u8] {
    let (numbers, stores) = (session.numbers, &session.stores);
    let (store, used) = [
        (&stores.definitions, numbers.definitions),
        (&stores.tuples, numbers.tuples),
        (&stores.reports, numbers.reports),
    ][store];
    &store[..used as usize]
}
