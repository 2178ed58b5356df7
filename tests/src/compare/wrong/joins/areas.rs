//! Wrong calls of join that leave other bytes in the lent areas, made from the proved one.

use crate::areas::Outputs;
use crate::boundary;
use crate::joining::{Joining, RESULT_BYTES};

/// The proved answer, and then a change of the result area where it has room for both numbers.
fn result_changed(first: &[u8], second: &[u8], areas: &mut Outputs, change: impl Fn(u64, &mut [u8], &[u8])) -> u64 {
    let before = areas.result.contents().to_vec();
    let number = boundary::join(first, second, areas);
    if before.len() >= RESULT_BYTES {
        change(number, areas.result.lent(), &before);
    }
    number
}

pub fn result_left(first: &[u8], second: &[u8], areas: &mut Outputs) -> u64 {
    result_changed(first, second, areas, |number, result, before| {
        if number != 0 {
            result.copy_from_slice(before);
        }
    })
}

/// On a refusal only which file is told.
pub fn count_left(first: &[u8], second: &[u8], areas: &mut Outputs) -> u64 {
    result_changed(first, second, areas, |number, result, before| {
        if number != 0 {
            result[..8].copy_from_slice(&before[..8]);
        }
    })
}

/// Which file is told only where one is refused.
pub fn which_left(first: &[u8], second: &[u8], areas: &mut Outputs) -> u64 {
    result_changed(first, second, areas, |number, result, before| {
        if !(1..=10).contains(&number) {
            result[8..16].copy_from_slice(&before[8..16]);
        }
    })
}

pub fn numbers_exchanged(first: &[u8], second: &[u8], areas: &mut Outputs) -> u64 {
    result_changed(first, second, areas, |_, result, _| result[..16].rotate_left(8))
}

pub fn highest_byte_first(first: &[u8], second: &[u8], areas: &mut Outputs) -> u64 {
    result_changed(first, second, areas, |_, result, _| {
        result[..8].reverse();
        result[8..16].reverse();
    })
}

/// Which file is told in one byte; the others stay.
pub fn which_in_one_byte(first: &[u8], second: &[u8], areas: &mut Outputs) -> u64 {
    result_changed(first, second, areas, |_, result, before| result[9..16].copy_from_slice(&before[9..16]))
}

pub fn behind_result_written(first: &[u8], second: &[u8], areas: &mut Outputs) -> u64 {
    result_changed(first, second, areas, |_, result, _| result[16..].iter_mut().take(1).for_each(|byte| *byte = 0))
}

pub fn short_result_written(first: &[u8], second: &[u8], areas: &mut Outputs) -> u64 {
    let number = boundary::join(first, second, areas);
    if (8..RESULT_BYTES).contains(&areas.result.contents().len()) {
        areas.result.lent()[..8].fill(0);
    }
    number
}

/// 8 bytes of result are enough, for the count.
pub fn short_result(first: &[u8], second: &[u8], areas: &mut Outputs) -> u64 {
    match boundary::join(first, second, areas) {
        12 if areas.result.contents().len() >= 8 => 0,
        number => number,
    }
}

pub fn longer_result_asked(first: &[u8], second: &[u8], areas: &mut Outputs) -> u64 {
    match boundary::join(first, second, areas) {
        0 if areas.result.contents().len() < 24 => 12,
        number => number,
    }
}

/// The byte after the file, where the output area has one.
pub fn byte_behind(first: &[u8], second: &[u8], areas: &mut Outputs) -> u64 {
    let number = boundary::join(first, second, areas);
    let length = areas.counted().len();
    if let Some(byte) = areas.output.lent().get_mut(length).filter(|_| number == 0) {
        *byte = 0;
    }
    number
}

/// The byte after the output area.
pub fn spilling(first: &[u8], second: &[u8], areas: &mut Outputs) -> u64 {
    areas.output.spill();
    boundary::join(first, second, areas)
}

/// As much of the joined file as fits is written before 15 is said.
pub fn written_on_15(first: &[u8], second: &[u8], areas: &mut Outputs) -> u64 {
    let number = boundary::join(first, second, areas);
    if let (15, Some(file)) = (number, Joining::of(first, second).file()) {
        let length = areas.output.contents().len();
        areas.output.lent().copy_from_slice(&file[..length]);
    }
    number
}

/// The first file is copied before this question is asked.
pub fn copied_before<const QUESTION: u64>(first: &[u8], second: &[u8], areas: &mut Outputs) -> u64 {
    let number = boundary::join(first, second, areas);
    if number == QUESTION {
        areas.output.lent().iter_mut().zip(first).for_each(|(byte, copied)| *byte = *copied);
    }
    number
}

/// The output area is cleared where a file is refused.
pub fn cleared(first: &[u8], second: &[u8], areas: &mut Outputs) -> u64 {
    let number = boundary::join(first, second, areas);
    if (1..=10).contains(&number) {
        areas.output.lent().fill(0);
    }
    number
}
