//! Limits of document 01, once for the independent reader and for the files that are made. The baseline, a program
//! of its own, has its own.

/// The highest price of an entry.
pub const HIGHEST_ENTRY: u64 = 1_000_000;

/// How many digits a number may have, and the highest number that has them.
pub const MOST_DIGITS: usize = 7;
pub const HIGHEST_NUMBER: u64 = 10u64.pow(MOST_DIGITS as u32) - 1;

/// No written file is longer.
pub const MOST_WRITTEN_BYTES: usize = 35_038;
