//! What numbers there are. A number that a request brings is added here, and some comparison must then make it come up.

/// Every number that a call gives: 0, or the first question that is answered "no".
pub const ALL: &[u64] = &[0, 1, 2, 3, 4, 5, 6, 7, 8, 9, 10, 11, 12, 13, 14, 15, 16, 17, 21];

/// The questions that every call puts to a file, but that parents asks nothing of parents.
pub const OF_FILES: &[u64] = &[1, 2, 3, 4, 5, 6, 7, 8, 9, 10];

/// The questions that are put to a region, whether a file or a caller's areas say it.
pub const OF_REGIONS: &[u64] = &[5, 6, 7, 8, 9, 10];
