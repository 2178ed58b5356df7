//! Faults of the questions that a call asks, in their order: each by itself, and every two of them.

use crate::compare::report::Difference;

/// Each question by itself, so many times.
pub fn one_by_one(
    asked: &[u64],
    count: usize,
    mut compare: impl FnMut(&[u64]) -> Result<(), Difference>,
) -> Result<(), Difference> {
    for question in (0..count).flat_map(|_| asked) {
        compare(&[*question])?;
    }
    Ok(())
}

/// Every two questions, and from each on all of them, so many times. The first "no" gives the number.
pub fn every_two(
    asked: &[u64],
    count: usize,
    mut compare: impl FnMut(&[u64]) -> Result<(), Difference>,
) -> Result<(), Difference> {
    for place in (0..count).flat_map(|_| 0..asked.len()) {
        for other in &asked[place + 1..] {
            compare(&[asked[place], *other])?;
        }
        compare(&asked[place..])?;
    }
    Ok(())
}
