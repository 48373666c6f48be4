//! Whole streams: each call by itself, beside the original what it can say, demand 3 of each closed scope by
//! the tree, and the tuple views at the end; at the door also over other bytes and path areas. A difference is
//! made small before it is shown.

use super::Run;
use super::areas;
use crate::beside::{Beside, LeftOut};
use crate::features;
use crate::model::records::parse;
use crate::model::reports::Rp;
use crate::model::session::{Session, World};
use crate::shrink::shrunk;
use crate::streams::Stream;
use crate::tally::Met;
use crate::tree::Tree;

/// A session that takes records: through the door and in the model, or in the model alone.
trait Driven {
    /// The reply, or what is wrong with it.
    fn take(&mut self, record: &[u8]) -> Result<u32, String>;

    fn world(&self) -> &World;
}

impl Driven for Run {
    fn take(&mut self, record: &[u8]) -> Result<u32, String> {
        Self::take(self, record)
    }

    fn world(&self) -> &World {
        &self.world
    }
}

impl Driven for World {
    fn take(&mut self, record: &[u8]) -> Result<u32, String> {
        Ok(self.step(record))
    }

    fn world(&self) -> &World {
        self
    }
}

/// A stream through the door and the model. What is wrong, if anything is.
pub fn through_door(stream: &Stream, met: &mut Met) -> Result<(), String> {
    let mut run = Run::set_up(stream);
    drive(&mut run, stream, None, met)?;
    met.fields += run.view()?;
    areas::compare(stream, areas::by_records)
}

/// A stream through the door, the model and the original.
pub fn through_all(stream: &Stream, met: &mut Met) -> Result<(), String> {
    let mut run = Run::set_up(stream);
    drive(&mut run, stream, Some(Beside::default()), met)?;
    met.fields += run.view()?;
    areas::compare(stream, areas::by_records)
}

/// A stream through the model alone, counted by the tree.
pub fn through_model(stream: &Stream, met: &mut Met) -> Result<(), String> {
    drive(&mut stream.set_up(), stream, None, met)
}

/// A stream through the model and the original.
pub fn through_original(stream: &Stream, met: &mut Met) -> Result<(), String> {
    drive(&mut stream.set_up(), stream, Some(Beside::default()), met)
}

/// What a stream is taken through.
pub type Through = fn(&Stream, &mut Met) -> Result<(), String>;

/// The fault, and the smallest stream found that has one.
pub fn shown(stream: &Stream, through: Through, fault: String) -> String {
    let fault_of = |stream: &Stream| through(stream, &mut Met::default()).err();
    let small = shrunk(stream.clone(), Stream::smaller, |it| fault_of(it).is_some());
    let fault = fault_of(&small).unwrap_or(fault);
    format!("{fault}\n{small:?}")
}

/// A session of which an area is too short takes nothing.
fn drive(
    session: &mut impl Driven,
    stream: &Stream,
    mut beside: Option<Beside>,
    met: &mut Met,
) -> Result<(), String> {
    let mut tree = Tree::default();
    let mut before = session.world().decode();
    met.streams += 1;
    for (place, bytes) in (1..).zip(&stream.records) {
        let at = |fault| format!("record {place}: {fault}");
        let reply = session.take(bytes).map_err(at)?;
        met.take(reply, bytes, session.world());
        if reply != 0 {
            continue;
        }
        let record = parse(bytes).expect("a record that was taken");
        let was = before.take().expect("10 comes before");
        let after = session.world().decode().ok_or("10 in a run".into());
        let after = after.map_err(at)?;
        beside.take_if(|_| LeftOut::of(session.world()).is_some());
        if let Some(beside) = &mut beside {
            beside.take(&record, &was, &after).map_err(at)?;
        }
        tree.take(&record);
        met.features.take_all(features::of(&record, &was, &after));
        met.take_session(&was, &after, session.world());
        before = Some(after);
    }
    if let Some(session) = before {
        met.scopes += count_scopes(&tree, &session)?;
    }
    met.beside += usize::from(beside.is_some());
    met.left_out.take_all(LeftOut::of(session.world()));
    Ok(())
}

/// Demand 3: of each closed unique or key scope the reports that bear its number are, record for record,
/// those of the tree, and they are as many as the first count exceeds the second. How many scopes.
fn count_scopes(tree: &Tree, session: &Session) -> Result<usize, String> {
    let judged = tree.judged(&session.tuples);
    for due in &judged {
        let bears = |report: &&Rp| report.scope == due.scope;
        let given: Vec<Rp> = session.reports.iter().filter(bears).copied().collect();
        if given != due.reports || due.first != due.second + given.len() {
            return Err(format!("the reports are {given:?}, and due is {due:?}"));
        }
    }
    Ok(judged.len())
}
