//! The tests that are run, not proved: the proved library beside an independent program written
//! from documents 01 and 02, and a baseline to measure it against.

pub mod areas;
pub mod baseline;
pub mod boundary;
pub mod compare;
pub mod files;
pub mod generate;
pub mod joining;
pub mod lent;
pub mod limits;
pub mod made_parents;
pub mod numbers;
pub mod outcomes;
pub mod plans;
pub mod printed;
pub mod random;
pub mod reader;
pub mod reading;
pub mod region;
