//! The oracles where the original is not there: the tests that ask them are skipped.

fn absent() -> ! {
    panic!("the original Rust is not there")
}

pub mod reader {
    use super::absent;
    use crate::definitions::Record;
    use crate::entries::Alternative;
    use crate::names::Name;
    use crate::paths::Kind;

    pub fn read(_: Kind, _: &str) -> Option<Vec<Alternative>> {
        absent()
    }

    pub struct Path;

    impl Path {
        pub fn of(_: &[Record], _: usize, _: u8) -> Option<Self> {
            absent()
        }

        pub fn spaces(&self) -> Vec<Option<&str>> {
            absent()
        }

        pub fn selects(&self, _: &[Name]) -> bool {
            absent()
        }

        pub fn reaches(&self, _: &[Name], _: Option<&str>) -> usize {
            absent()
        }
    }
}

pub mod session {
    pub use super::super::open::{Cell, Open, Tuples};
    use super::absent;
    use crate::definitions::Record;
    use crate::names::Name;

    pub fn quoted(_: &str) -> String {
        absent()
    }

    pub struct Session;

    impl Session {
        pub fn new(_: &[Record]) -> Self {
            absent()
        }

        pub fn start(&mut self, _: &Name, _: &[usize], _: &[(&str, &str)]) {
            absent()
        }

        pub fn end(&mut self, _: bool, _: &str) {
            absent()
        }

        pub fn messages(&mut self) -> Vec<String> {
            absent()
        }

        pub fn keyref_messages(&self) -> Vec<String> {
            absent()
        }

        pub fn selects(&self, _: usize) -> bool {
            absent()
        }

        pub fn cell(&self, _: usize, _: usize) -> Cell {
            absent()
        }

        pub fn open(&self) -> Vec<Open> {
            absent()
        }

        pub fn tuples(&self, _: &str) -> Tuples {
            absent()
        }
    }
}
