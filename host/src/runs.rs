//! A session through the door, held against the model call by call: the reply, the five numbers, and every
//! byte of the stores and areas. Of the path area the first bytes are free after a call that takes something;
//! what stands behind them stays, and a call that takes nothing hands all of it back as it was.

use std::ops::Range;

use crate::identity::{self, Numbers, Stores};
use crate::model::bytes::{part, read_all, standing};
use crate::model::counts::PATHS_MIN;
use crate::model::scopes;
use crate::model::session::World;
use crate::model::tuples::{Tu, field_part};
use crate::store_cases::difference;
use crate::streams::Stream;

mod areas;
mod buffers;
mod damage;
mod whole;

pub use buffers::through_buffers;
pub use damage::compare_damaged;
pub use whole::{Through, shown, through_all, through_door, through_model, through_original};

/// Bytes on both sides of what is lent.
const GUARD: [u8; 64] = [0xA5; 64];

/// Lent bytes with others on both sides, so that a write outside shows.
#[derive(Clone)]
struct Guarded(Vec<u8>);

impl Guarded {
    fn new(bytes: &[u8]) -> Self {
        Self([&GUARD, bytes, &GUARD].concat())
    }

    fn inside(&self) -> &[u8] {
        &self.0[GUARD.len()..self.0.len() - GUARD.len()]
    }

    fn inside_mut(&mut self) -> &mut [u8] {
        let end = self.0.len() - GUARD.len();
        &mut self.0[GUARD.len()..end]
    }

    fn is_guarded(&self) -> bool {
        self.0.starts_with(&GUARD) && self.0.ends_with(&GUARD)
    }
}

/// What the door is lent.
#[derive(Clone)]
struct Buffers {
    numbers: Numbers,
    definitions: Guarded,
    tuples: Guarded,
    reports: Guarded,
    paths: Guarded,
    scopes: Guarded,
    names: Guarded,
    cells: Guarded,
}

/// The same session at the door and in the model.
#[derive(Clone)]
pub struct Run {
    buffers: Buffers,
    pub world: World,
    /// Of the scope list what stands behind its last whole record.
    tail: Vec<u8>,
}

impl Run {
    /// At set-up.
    pub fn set_up(stream: &Stream) -> Self {
        Self::of(stream.set_up(), &vec![stream.fill; stream.tail])
    }

    /// From a world on, with bytes behind the last whole record of the scope list.
    pub fn of(world: World, tail: &[u8]) -> Self {
        let scopes = [&scopes::put(&world.scopes), tail].concat();
        // No byte of it is one that a path is written with.
        let paths = vec![0xF9; world.path_area];
        let buffers = Buffers {
            numbers: world.numbers,
            definitions: Guarded::new(&world.definition_store),
            tuples: Guarded::new(&world.tuple_store),
            reports: Guarded::new(&world.report_store),
            paths: Guarded::new(&paths),
            scopes: Guarded::new(&scopes),
            names: Guarded::new(&world.names),
            cells: Guarded::new(&world.cells),
        };
        Self {
            buffers,
            world,
            tail: tail.into(),
        }
    }

    /// Hands a record to both. The reply, or how they differ.
    pub fn take(&mut self, record: &[u8]) -> Result<u32, String> {
        let paths = self.buffers.paths.clone();
        let given = self.buffers.record(record);
        let due = self.world.step(record);
        if given != due {
            return Err(format!("answered {given}, and {due} is due"));
        }
        self.compare(due == 0, &paths)?;
        Ok(due)
    }

    /// Hands a buffer of records to both. The reply and the bytes taken, or how they differ.
    pub fn take_buffer(&mut self, buffer: &[u8]) -> Result<(u32, usize), String> {
        let paths = self.buffers.paths.clone();
        let given = self.buffers.run(buffer);
        let due = self.world.run(buffer);
        if given != due {
            return Err(format!(
                "answered {} and took {}, and {due:?} are due",
                given.0, given.1
            ));
        }
        self.compare(due.1 > 0, &paths)?;
        Ok(due)
    }

    /// Hands a record to both and gives both replies, with no look at the bytes: for runs of very many
    /// records.
    pub fn take_quickly(&mut self, record: &[u8]) -> (u32, u32) {
        (self.buffers.record(record), self.world.step(record))
    }

    /// The numbers and all that is lent, after a call that took something or did not.
    fn compare(&self, has_taken: bool, paths: &Guarded) -> Result<(), String> {
        let Self { buffers, world, .. } = self;
        if buffers.numbers != world.numbers {
            return Err(format!(
                "left {:?}, and {:?} are due",
                buffers.numbers, world.numbers
            ));
        }
        let scopes = [&scopes::put(&world.scopes), &self.tail[..]].concat();
        compare(
            "definition store",
            &buffers.definitions,
            &world.definition_store,
        )?;
        compare("tuple store", &buffers.tuples, &world.tuple_store)?;
        compare("report store", &buffers.reports, &world.report_store)?;
        compare("scopes", &buffers.scopes, &scopes)?;
        compare("open names", &buffers.names, &world.names)?;
        compare("field cells", &buffers.cells, &world.cells)?;
        let free = if has_taken { PATHS_MIN } else { 0 };
        let due = [&buffers.paths.inside()[..free], &paths.inside()[free..]].concat();
        compare("path area", &buffers.paths, &due)
    }

    /// Shows each field of each TU through the door, and some that none has. How many fields there are, or
    /// how one differs.
    pub fn view(&self) -> Result<usize, String> {
        let (used, store) = (self.world.numbers.tuples, &self.world.tuple_store);
        let tuples = standing(part(store, 0, used as usize), Tu::take);
        let mut fields = 0;
        for (number, tuple) in (1..).zip(&tuples) {
            for (field, key) in (0..).zip(&tuple.keys) {
                let shown = &store[compare_view(used, store, number, field)?];
                if shown != key {
                    return Err(format!(
                        "TU {number} field {field}: {}",
                        shown.escape_ascii()
                    ));
                }
                fields += 1;
            }
            compare_view(used, store, number, tuple.keys.len() as u32)?;
        }
        let behind = tuples.len() as u32 + 1;
        for (number, field) in [(0, 0), (behind, 0), (u32::MAX, 0), (1, 4), (1, u32::MAX)] {
            compare_view(used, store, number, field)?;
        }
        Ok(fields)
    }
}

/// Lent bytes must be those that are due, and nothing outside of them may be written.
fn compare(name: &str, given: &Guarded, due: &[u8]) -> Result<(), String> {
    if !given.is_guarded() {
        return Err(format!("{name}: a write outside"));
    }
    match given.inside() == due {
        true => Ok(()),
        false => Err(format!("{name}: {}", difference(given.inside(), due))),
    }
}

/// The part of a tuple store that the door shows, which must be the model's.
pub fn compare_view(used: u64, store: &[u8], number: u32, field: u32) -> Result<Place, String> {
    let given = identity::tuple_part(used, store, number, field);
    let due = view_due(used, store, number, field);
    match given == due {
        true => Ok(given),
        false => Err(format!(
            "TU {number} field {field}: {given:?}, and {due:?} is due"
        )),
    }
}

/// The part by the model. More bytes used than there are, or bytes that are no TUs: none is shown.
fn view_due(used: u64, store: &[u8], number: u32, field: u32) -> Place {
    match store.get(..used as usize) {
        Some(used) if read_all(used, Tu::take).is_some() => field_part(used, number, field),
        _ => 0..0,
    }
}

/// Where something stands in a store.
type Place = Range<usize>;

impl Buffers {
    fn record(&mut self, record: &[u8]) -> u32 {
        self.call(|session| session.record(record).number())
    }

    /// The reply, and the bytes taken.
    fn run(&mut self, buffer: &[u8]) -> (u32, usize) {
        let (reply, taken) = self.call(|session| session.run(buffer));
        (reply.number(), taken)
    }

    fn call<T>(&mut self, call: impl FnOnce(&mut identity::Session<&mut [u8]>) -> T) -> T {
        let mut session = identity::Session {
            numbers: self.numbers,
            stores: Stores {
                definitions: self.definitions.inside_mut(),
                tuples: self.tuples.inside_mut(),
                reports: self.reports.inside_mut(),
                paths: self.paths.inside_mut(),
                scopes: self.scopes.inside_mut(),
                names: self.names.inside_mut(),
                cells: self.cells.inside_mut(),
            },
        };
        let answer = call(&mut session);
        self.numbers = session.numbers;
        answer
    }
}
