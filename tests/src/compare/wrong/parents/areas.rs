//! Wrong calls of parents that leave other bytes in the lent areas, made from the proved one.

use crate::areas::Outputs;
use crate::compare::parents::RESULT_BYTES;
use crate::{boundary, made_parents};

/// The proved answer, and then a change of the result area where it has room for the byte count.
fn result_changed(file: &[u8], areas: &mut Outputs, change: impl Fn(u64, &mut [u8], &[u8])) -> u64 {
    let before = areas.result.contents().to_vec();
    let number = boundary::parents(file, areas);
    if before.len() >= RESULT_BYTES {
        change(number, areas.result.lent(), &before);
    }
    number
}

pub fn result_left(file: &[u8], areas: &mut Outputs) -> u64 {
    result_changed(file, areas, |number, result, before| {
        if number != 0 {
            result.copy_from_slice(before);
        }
    })
}

pub fn highest_byte_first(file: &[u8], areas: &mut Outputs) -> u64 {
    result_changed(file, areas, |_, result, _| result[..8].reverse())
}

/// The count has four bytes; the others stay.
pub fn count_in_four_bytes(file: &[u8], areas: &mut Outputs) -> u64 {
    result_changed(file, areas, |_, result, before| result[4..8].copy_from_slice(&before[4..8]))
}

/// Another count of the bytes that were written.
fn with_count(file: &[u8], areas: &mut Outputs, count: impl Fn(u64) -> u64) -> u64 {
    result_changed(file, areas, |number, result, _| {
        if number == 0 {
            let due = u64::from_le_bytes(result[..8].try_into().expect("8 bytes"));
            result[..8].copy_from_slice(&count(due).to_le_bytes());
        }
    })
}

pub fn count_one_higher(file: &[u8], areas: &mut Outputs) -> u64 {
    with_count(file, areas, |count| count + 1)
}

/// The count leaves out the last line end.
pub fn count_one_lower(file: &[u8], areas: &mut Outputs) -> u64 {
    with_count(file, areas, |count| count - 1)
}

pub fn count_of_the_file_read(file: &[u8], areas: &mut Outputs) -> u64 {
    with_count(file, areas, |_| file.len() as u64)
}

pub fn count_of_the_area(file: &[u8], areas: &mut Outputs) -> u64 {
    let length = areas.output.contents().len() as u64;
    with_count(file, areas, |_| length)
}

/// On 15 the result area says how many bytes are needed.
pub fn need_told(file: &[u8], areas: &mut Outputs) -> u64 {
    result_changed(file, areas, |number, result, _| {
        if number == 15 {
            let needed = made_parents::file(file).map_or(0, |made| made.len() as u64);
            result[..8].copy_from_slice(&needed.to_le_bytes());
        }
    })
}

/// A zero behind the count, as join has there.
pub fn behind_result_written(file: &[u8], areas: &mut Outputs) -> u64 {
    result_changed(file, areas, |_, result, _| result[8..].fill(0))
}

pub fn short_result_written(file: &[u8], areas: &mut Outputs) -> u64 {
    let number = boundary::parents(file, areas);
    if areas.result.contents().len() < RESULT_BYTES {
        areas.result.lent().fill(0);
    }
    number
}

/// 4 bytes of result are enough for a count.
pub fn short_result(file: &[u8], areas: &mut Outputs) -> u64 {
    match boundary::parents(file, areas) {
        12 if areas.result.contents().len() >= 4 => 0,
        number => number,
    }
}

pub fn longer_result_asked(file: &[u8], areas: &mut Outputs) -> u64 {
    match boundary::parents(file, areas) {
        0 if areas.result.contents().len() < 16 => 12,
        number => number,
    }
}

/// The byte after the file, where the output area has one.
pub fn byte_behind(file: &[u8], areas: &mut Outputs) -> u64 {
    let number = boundary::parents(file, areas);
    let length = areas.counted().len();
    if let Some(byte) = areas.output.lent().get_mut(length).filter(|_| number == 0) {
        *byte = 0;
    }
    number
}

/// The file that was read is copied first, so that what is longer of it stays behind the file that is written.
pub fn copied_first(file: &[u8], areas: &mut Outputs) -> u64 {
    let before = areas.clone();
    let number = boundary::parents(file, areas);
    let length = areas.counted().len();
    if number == 0 && before.output.contents().len() >= file.len() {
        let behind = areas.output.lent().iter_mut().zip(file).skip(length);
        behind.for_each(|(byte, copied)| *byte = *copied);
    }
    number
}

/// The byte after the output area.
pub fn spilling(file: &[u8], areas: &mut Outputs) -> u64 {
    areas.output.spill();
    boundary::parents(file, areas)
}

/// As much of the file as fits is written before 15 is said.
pub fn written_on_15(file: &[u8], areas: &mut Outputs) -> u64 {
    let number = boundary::parents(file, areas);
    if let (15, Ok(made)) = (number, made_parents::file(file)) {
        let length = areas.output.contents().len();
        areas.output.lent().copy_from_slice(&made[..length]);
    }
    number
}

/// The file is copied before this question is asked.
pub fn copied_before<const QUESTION: u64>(file: &[u8], areas: &mut Outputs) -> u64 {
    let number = boundary::parents(file, areas);
    if number == QUESTION {
        areas.output.lent().iter_mut().zip(file).for_each(|(byte, copied)| *byte = *copied);
    }
    number
}

/// The output area is cleared where the file is refused.
pub fn cleared(file: &[u8], areas: &mut Outputs) -> u64 {
    let number = boundary::parents(file, areas);
    if (1..=9).contains(&number) {
        areas.output.lent().fill(0);
    }
    number
}
