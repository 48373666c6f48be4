//! The test host: drives the doors of the proved archive beside what they are held against.
//!
//! In the order of reading: the library's calls and the doors for tests; what they are held against
//! (the names of XML written out, the original Rust where its folder is there, for stores and sessions a
//! plain reading of document 01, and for a session also the element tree); what they are fed (listed,
//! random and all short texts and paths; random and damaged stores; streams of records; inputs for the
//! program `icheck`); how often each answer was seen, and how long it took; and the stored answers.

pub mod identity;

pub mod doors;
pub mod store_doors;

#[cfg(oracle)]
mod error;
#[cfg(oracle)]
mod namespace;
pub mod ncname;
pub mod oracle;
#[cfg(oracle)]
mod schema;

pub mod definitions;
pub mod entries;
pub mod names;

pub mod model;

pub mod beside;
pub mod output;
pub mod runs;
pub mod tree;

pub mod bindings;
pub mod checker;
pub mod matching;
pub mod reader;
pub mod shrink;

pub mod calls;
pub mod cases;
pub mod inputs;
pub mod made;
pub mod paths;
pub mod random;
pub mod spaces;
pub mod store_cases;
pub mod streams;
pub mod texts;

pub mod features;
pub mod tally;
pub mod times;

pub mod answers;
pub mod stored_runs;
