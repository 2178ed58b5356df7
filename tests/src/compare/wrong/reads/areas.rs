//! Wrong calls of read that leave other bytes in the lent areas, made from the proved one.

use crate::areas::{ArrayLengths, Arrays};
use crate::boundary;
use crate::reading::{Reading, MOST_BYTES, RESULT_BYTES};

/// Place of the result area among the four.
const RESULT: usize = 3;

/// How many bytes of each area are due to be written where the number is 0.
fn written(file: &[u8]) -> ArrayLengths {
    Reading::of(file).asked().unwrap_or_default()
}

/// The proved answer, then a change of all areas, given the number and what they were.
fn afterwards(file: &[u8], areas: &mut Arrays, change: impl Fn(u64, &mut Arrays, &Arrays)) -> u64 {
    let before = areas.clone();
    let number = boundary::read(file, areas);
    change(number, areas, &before);
    number
}

/// A change of the result area where it has room for the four numbers.
fn result_changed(file: &[u8], areas: &mut Arrays, change: impl Fn(u64, &mut [u8], &[u8])) -> u64 {
    afterwards(file, areas, |number, areas, before| {
        if before.result.contents().len() >= RESULT_BYTES {
            change(number, areas.result.lent(), before.result.contents());
        }
    })
}

pub fn result_left(file: &[u8], areas: &mut Arrays) -> u64 {
    result_changed(file, areas, |number, result, before| {
        if number != 0 {
            result.copy_from_slice(before);
        }
    })
}

/// The result area is left where this is the number.
pub fn result_left_on<const NUMBER: u64>(file: &[u8], areas: &mut Arrays) -> u64 {
    result_changed(file, areas, |number, result, before| {
        if number == NUMBER {
            result.copy_from_slice(before);
        }
    })
}

/// A refusal zeroes so many bytes of the result area, and not all 32.
pub fn zeros_up_to<const BYTES: usize>(file: &[u8], areas: &mut Arrays) -> u64 {
    result_changed(file, areas, |number, result, before| {
        if number != 0 {
            result[BYTES..].copy_from_slice(&before[BYTES..]);
        }
    })
}

/// A refusal zeroes the whole result area, however long.
pub fn all_of_the_result_zeroed(file: &[u8], areas: &mut Arrays) -> u64 {
    result_changed(file, areas, |number, result, _| {
        if number != 0 {
            result.fill(0);
        }
    })
}

/// The result area says V, T, m and N where an area is too short.
pub fn need_told(file: &[u8], areas: &mut Arrays) -> u64 {
    let mut others = Arrays::patterned(MOST_BYTES, 0);
    boundary::read(file, &mut others);
    result_changed(file, areas, |number, result, _| {
        if number == 12 {
            result[..RESULT_BYTES].copy_from_slice(others.result.contents());
        }
    })
}

/// The number itself stands in the result area of a refusal.
pub fn number_told(file: &[u8], areas: &mut Arrays) -> u64 {
    result_changed(file, areas, |number, result, _| {
        if number != 0 {
            result[..8].copy_from_slice(&number.to_le_bytes());
        }
    })
}

/// A fifth number, a zero, behind the four.
pub fn behind_result_written(file: &[u8], areas: &mut Arrays) -> u64 {
    result_changed(file, areas, |_, result, _| result[RESULT_BYTES..].fill(0))
}

/// N is not written.
pub fn three_results(file: &[u8], areas: &mut Arrays) -> u64 {
    result_changed(file, areas, |_, result, before| result[24..].copy_from_slice(&before[24..]))
}

pub fn short_result_zeroed(file: &[u8], areas: &mut Arrays) -> u64 {
    afterwards(file, areas, |_, areas, _| {
        if areas.result.contents().len() < RESULT_BYTES {
            areas.result.lent().fill(0);
        }
    })
}

/// Of a short result area the whole numbers are zeroed.
pub fn short_result_zeroed_by_numbers(file: &[u8], areas: &mut Arrays) -> u64 {
    afterwards(file, areas, |_, areas, _| {
        let length = areas.result.contents().len();
        if length < RESULT_BYTES {
            areas.result.lent()[..length / 8 * 8].fill(0);
        }
    })
}

/// On success the numbers of this area are written highest byte first.
pub fn highest_byte_first<const PLACE: usize>(file: &[u8], areas: &mut Arrays) -> u64 {
    let length = written(file)[PLACE];
    afterwards(file, areas, |number, areas, _| {
        if number == 0 {
            areas.each()[PLACE].lent()[..length].chunks_mut(8).for_each(|number| number.reverse());
        }
    })
}

/// On success the numbers of this area have four bytes; the others stay.
pub fn four_bytes<const PLACE: usize>(file: &[u8], areas: &mut Arrays) -> u64 {
    let length = written(file)[PLACE];
    afterwards(file, areas, |number, areas, before| {
        if number == 0 {
            let bytes = areas.each()[PLACE].lent()[..length].iter_mut();
            let higher = bytes.zip(before.all()[PLACE].contents()).enumerate().filter(|(place, _)| place % 8 >= 4);
            higher.for_each(|(_, (byte, was))| *byte = *was);
        }
    })
}

/// The byte after what is written, where this area has one.
pub fn byte_behind<const PLACE: usize>(file: &[u8], areas: &mut Arrays) -> u64 {
    let length = written(file)[PLACE];
    afterwards(file, areas, |number, areas, _| {
        if let Some(byte) = areas.each()[PLACE].lent().get_mut(length).filter(|_| number == 0) {
            *byte = 0;
        }
    })
}

/// What this area has beyond is cleared.
pub fn beyond_cleared<const PLACE: usize>(file: &[u8], areas: &mut Arrays) -> u64 {
    let length = written(file)[PLACE];
    afterwards(file, areas, |number, areas, _| {
        if number == 0 {
            areas.each()[PLACE].lent()[length..].fill(0);
        }
    })
}

/// The byte after this area.
pub fn spilling<const PLACE: usize>(file: &[u8], areas: &mut Arrays) -> u64 {
    areas.each()[PLACE].spill();
    boundary::read(file, areas)
}

/// The byte after this area, where it is just long enough.
pub fn spilling_where_full<const PLACE: usize>(file: &[u8], areas: &mut Arrays) -> u64 {
    let length = written(file)[PLACE];
    afterwards(file, areas, |number, areas, _| {
        if number == 0 && areas.lengths()[PLACE] == length {
            areas.each()[PLACE].spill();
        }
    })
}

/// This area is written though another one is too short: as much as it has room for.
pub fn written_on_12<const PLACE: usize>(file: &[u8], areas: &mut Arrays) -> u64 {
    let mut others = Arrays::patterned(MOST_BYTES, 0);
    boundary::read(file, &mut others);
    let length = written(file)[PLACE];
    afterwards(file, areas, |number, areas, _| {
        if number == 12 && PLACE != RESULT {
            let due = &others.all()[PLACE].contents()[..length];
            areas.each()[PLACE].lent().iter_mut().zip(due).for_each(|(byte, due)| *byte = *due);
        }
    })
}

/// This area is cleared where the number is this.
pub fn cleared_on<const PLACE: usize, const NUMBER: u64>(file: &[u8], areas: &mut Arrays) -> u64 {
    afterwards(file, areas, |number, areas, _| {
        if number == NUMBER {
            areas.each()[PLACE].lent().fill(0);
        }
    })
}

/// The first patient is written before question 10 is asked.
pub fn written_before_10(file: &[u8], areas: &mut Arrays) -> u64 {
    afterwards(file, areas, |number, areas, _| {
        if let (10, Some(patient)) = (number, areas.patients.lent().get_mut(..32)) {
            patient.fill(1);
        }
    })
}
