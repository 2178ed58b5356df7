//! The same product as an engineer would write it for speed, without proofs: a reader into fixed
//! arrays, a branch and bound search, a writer, a joiner, a maker of parents, and the calls from C over them. The benchmark
//! measures it beside the proved library, and the tests use it as a second route.

pub mod array_reader;
pub mod calls;
pub mod held;
pub mod joiner;
pub mod parent_maker;
pub mod reader;
pub mod rows;
pub mod search;
pub mod writer;
