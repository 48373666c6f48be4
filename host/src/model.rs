//! A plain Rust reading of document 01: the records, what the stores and areas of a session hold, and
//! the record call. It is written from the document and from the definitions in `crates/records/specs`
//! and `crates/session_spec/specs`, it calls no door, and it prefers the obvious to the fast.
//!
//! In the order of reading: numbers and texts in bytes; the five records and the refusals; the
//! definition store; tuples and reports; open names, scopes, cells and selections; the five numbers;
//! the whole, a [`session::World`] and the [`session::Session`] that it decodes to; paths, their one
//! spelling and what they match, a constraint's paths, what each record does to a session, what a finished selection comes to;
//! the record call, [`session::World::step`]; and [`session::World::run`], which is that call on the
//! records of a buffer.

pub mod bytes;

pub mod records;

pub mod definitions;

pub mod reports;
pub mod tuples;

pub mod cells;
pub mod names;
pub mod scopes;
pub mod selections;

pub mod counts;
pub mod session;

pub mod matching;
pub mod paths;
pub mod spelling;

pub mod constraints;
pub mod judge;

mod events;
mod step;

pub mod buffers;
