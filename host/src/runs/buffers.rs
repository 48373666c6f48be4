//! The same session thrice: over buffers through the door, record by record through the door, and in the
//! model. What a buffer leaves is carried over to the next.
//!
//! The session that takes record by record has stores, areas and records with nothing beside them, so that
//! `tools/valgrind` sees a byte that is read or written outside.

use super::{Buffers, Run, areas, compare};
use crate::identity::{Session, Stores};
use crate::model::buffers::take_frame;
use crate::model::records::BODY_MAX;
use crate::streams::Stream;
use crate::tally::{Met, Over};

/// A stream whose records are pieces of a buffer, cut anywhere. What is wrong, if anything is.
pub fn through_buffers(stream: &Stream, met: &mut Met) -> Result<(), String> {
    let mut run = Run::set_up(stream);
    let mut singly = run.buffers.unguarded();
    let mut buffer = Vec::new();
    met.streams += 1;
    for (place, piece) in (1..).zip(&stream.records) {
        buffer.extend(piece);
        take_piece(&mut run, &mut singly, &mut buffer, met)
            .map_err(|fault| format!("piece {place}: {fault}"))?;
    }
    // At the end of the input the record call says what the rest lacks.
    if !buffer.is_empty() {
        met.replies.take(run.take(&buffer)?);
        singly.record(&buffer);
        same(&run.buffers, &singly)?;
    }
    met.fields += run.view()?;
    areas::compare(stream, areas::by_buffers)
}

/// Runs over a buffer, and again behind each record that is refused. What is left in it is not whole.
fn take_piece(
    run: &mut Run,
    singly: &mut Session,
    buffer: &mut Vec<u8>,
    met: &mut Met,
) -> Result<(), String> {
    loop {
        let (reply, taken) = run.take_buffer(buffer)?;
        let by_records = frames(singly, buffer);
        if by_records != (reply, taken) {
            return Err(format!(
                "answered {reply} and took {taken}, and record by record {by_records:?}"
            ));
        }
        same(&run.buffers, singly)?;
        met.runs.take(reply);
        met.over.take(over(buffer, reply, taken));
        buffer.drain(..taken);
        if reply == 0 {
            return Ok(());
        }
        let refused = take_frame(&mut &buffer[..]).map(<[u8]>::len);
        buffer.drain(..refused.ok_or("a record was refused that is not whole")?);
    }
}

/// How the run over a buffer ended.
fn over(buffer: &[u8], reply: u32, taken: usize) -> Over {
    let behind = &buffer[taken..];
    let states_more = || usize::from(u16::from_le_bytes([behind[2], behind[3]])) > BODY_MAX;
    match (reply, taken) {
        (0, 0) if buffer.is_empty() => Over::Empty,
        (0, 0) => Over::NoneWhole,
        (0, _) if behind.is_empty() => Over::AllTaken,
        (0, _) => Over::RestLeft,
        _ if states_more() => Over::HeaderRefused,
        (_, 0) => Over::FirstRefused,
        _ => Over::LaterRefused,
    }
}

/// The frames of a buffer by the record call, until one is refused: the last reply, and the bytes of those
/// taken.
fn frames(session: &mut Session, buffer: &[u8]) -> (u32, usize) {
    let (mut rest, mut taken) = (buffer, 0);
    while let Some(frame) = take_frame(&mut rest) {
        match session.record(&frame.to_vec()).number() {
            0 => taken += frame.len(),
            refusal => return (refusal, taken),
        }
    }
    (0, taken)
}

impl Buffers {
    fn unguarded(&self) -> Session {
        Session {
            numbers: self.numbers,
            stores: Stores {
                definitions: self.definitions.inside().into(),
                tuples: self.tuples.inside().into(),
                reports: self.reports.inside().into(),
                paths: self.paths.inside().into(),
                scopes: self.scopes.inside().into(),
                names: self.names.inside().into(),
                cells: self.cells.inside().into(),
            },
        }
    }
}

/// All that is lent, over buffers and record by record. What the path area holds is free.
fn same(given: &Buffers, due: &Session) -> Result<(), String> {
    if given.numbers != due.numbers {
        return Err(format!(
            "left {:?}, and record by record {:?}",
            given.numbers, due.numbers
        ));
    }
    let stores = &due.stores;
    for (name, given, due) in [
        ("definition store", &given.definitions, &stores.definitions),
        ("tuple store", &given.tuples, &stores.tuples),
        ("report store", &given.reports, &stores.reports),
        ("scopes", &given.scopes, &stores.scopes),
        ("open names", &given.names, &stores.names),
        ("field cells", &given.cells, &stores.cells),
    ] {
        compare(name, given, due)?;
    }
    Ok(())
}
