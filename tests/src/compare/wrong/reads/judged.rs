//! Wrong calls of read that ask otherwise, made from the proved one.

use crate::areas::{ArrayLengths, Arrays};
use crate::compare::wrong::checks::line_ended;
use crate::compare::wrong::fixed_beds::in_new_form;
use crate::generate::parents::set_parents;
use crate::generate::spelling::{file_of, with_right_sum};
use crate::outcomes::write_result;
use crate::reading::{Reading, MOST_BYTES};
use crate::region::Region;
use crate::{boundary, plans, reader};

/// Says 0 where this question's "no" was the first.
pub fn without<const QUESTION: u64>(file: &[u8], areas: &mut Arrays) -> u64 {
    match boundary::read(file, areas) {
        number if number == QUESTION => 0,
        number => number,
    }
}

/// Gives another number instead of reading; the three areas stay as they were.
fn refused(areas: &mut Arrays, number: u64) -> u64 {
    write_result(areas.result.lent(), &[0; 4]);
    number
}

/// Refuses with this number what would be fine, where this says so of the lengths lent and those asked for.
fn refusing<const NUMBER: u64>(
    file: &[u8],
    areas: &mut Arrays,
    refuses: impl Fn(ArrayLengths, ArrayLengths) -> bool,
) -> u64 {
    let before = areas.clone();
    match (boundary::read(file, areas), Reading::of(file).asked()) {
        (0, Some(asked)) if refuses(before.lengths(), asked) => {
            areas.take(&before);
            refused(areas, NUMBER)
        }
        (number, _) => number,
    }
}

/// What question 12 asks for, were it asked of what the file says.
fn asked_of(file: &[u8]) -> Option<ArrayLengths> {
    Reading::judged(reader::said(file).as_ref().ok_or(2)).asked()
}

/// Are the areas too short for what the file says?
fn too_short(file: &[u8], areas: &Arrays) -> bool {
    let asked = asked_of(file).unwrap_or_default();
    areas.lengths().iter().zip(asked).any(|(lent, asked)| *lent < asked)
}

/// Asks 12 before this question.
pub fn twelve_before<const QUESTION: u64>(file: &[u8], areas: &mut Arrays) -> u64 {
    match boundary::read(file, areas) {
        number if number == QUESTION && too_short(file, areas) => 12,
        number => number,
    }
}

/// Asks for the bytes of the result area before anything else.
pub fn result_first(file: &[u8], areas: &mut Arrays) -> u64 {
    if areas.result.contents().len() < 32 {
        return 12;
    }
    boundary::read(file, areas)
}

/// Gives another number than this one.
pub fn renumbered<const NUMBER: u64, const OTHER: u64>(file: &[u8], areas: &mut Arrays) -> u64 {
    match boundary::read(file, areas) {
        number if number == NUMBER => OTHER,
        number => number,
    }
}

/// Of this area so many bytes fewer are enough: where only they are missing, the number is 0.
pub fn bytes_fewer<const PLACE: usize, const BYTES: usize>(file: &[u8], areas: &mut Arrays) -> u64 {
    let mut lengths = areas.lengths();
    lengths[PLACE] += BYTES;
    let enough = |asked: ArrayLengths| lengths.iter().zip(asked).all(|(lent, asked)| *lent >= asked);
    match boundary::read(file, areas) {
        12 if asked_of(file).is_some_and(enough) => 0,
        number => number,
    }
}

/// Of this area so many bytes more are needed.
pub fn bytes_more<const PLACE: usize, const BYTES: usize>(file: &[u8], areas: &mut Arrays) -> u64 {
    refusing::<12>(file, areas, |lent, asked| lent[PLACE] < asked[PLACE] + BYTES)
}

/// The length of this area is not asked.
pub fn area_unasked<const PLACE: usize>(file: &[u8], areas: &mut Arrays) -> u64 {
    bytes_fewer::<PLACE, 1_000_000>(file, areas)
}

/// This area may not be longer than needed.
pub fn longer_refused<const PLACE: usize>(file: &[u8], areas: &mut Arrays) -> u64 {
    refusing::<12>(file, areas, |lent, asked| lent[PLACE] > asked[PLACE])
}

/// This area may not be much longer than needed.
pub fn much_longer_refused<const PLACE: usize>(file: &[u8], areas: &mut Arrays) -> u64 {
    refusing::<12>(file, areas, |lent, asked| lent[PLACE] > asked[PLACE] + 64)
}

/// Areas must be whole, as those that write takes.
pub fn whole_areas_asked(file: &[u8], areas: &mut Arrays) -> u64 {
    refusing::<2>(file, areas, |lent, _| lent[0] % 32 != 0 || lent[1] % 48 != 0 || lent[2] % 8 != 0)
}

/// This area must be long enough for every file.
pub fn room_for_all_asked<const PLACE: usize>(file: &[u8], areas: &mut Arrays) -> u64 {
    refusing::<12>(file, areas, |lent, _| lent[PLACE] < MOST_BYTES[PLACE])
}

/// The three areas together must be long enough, whichever has the bytes.
pub fn together_enough(file: &[u8], areas: &mut Arrays) -> u64 {
    let sum = |lengths: ArrayLengths| lengths[..3].iter().sum::<usize>();
    let lent = areas.lengths();
    match boundary::read(file, areas) {
        12 if asked_of(file).is_some_and(|asked| sum(lent) >= sum(asked) && lent[3] >= asked[3]) => 0,
        number => number,
    }
}

/// A file that says something else is refused, though it could be read.
fn refusing_region<const NUMBER: u64>(file: &[u8], areas: &mut Arrays, refuses: impl Fn(&Region) -> bool) -> u64 {
    let region = reader::said(file);
    refusing::<NUMBER>(file, areas, |_, _| region.as_ref().is_some_and(&refuses))
}

pub fn thirteen(file: &[u8], areas: &mut Arrays) -> u64 {
    refusing_region::<13>(file, areas, |region| region.plan_count() <= 2_048 && plans::list(region).is_empty())
}

pub fn no_tables_refused(file: &[u8], areas: &mut Arrays) -> u64 {
    refusing_region::<12>(file, areas, |region| region.tables.is_empty())
}

pub fn the_most_refused<const PATIENTS: usize, const TABLES: usize>(file: &[u8], areas: &mut Arrays) -> u64 {
    refusing_region::<5>(file, areas, |region| region.patients.len() == PATIENTS || region.tables.len() == TABLES)
}

pub fn full_store_refused(file: &[u8], areas: &mut Arrays) -> u64 {
    let entries = |region: &Region| region.tables.iter().map(|table| table.entries.len()).sum::<usize>();
    refusing_region::<8>(file, areas, |region| entries(region) == 4_096)
}

pub fn highest_price_refused(file: &[u8], areas: &mut Arrays) -> u64 {
    refusing_region::<9>(file, areas, |region| {
        region.tables.iter().flat_map(|table| &table.entries).any(|entry| *entry == Some(1_000_000))
    })
}

/// A file whose parents are wrong is read as parents would write it.
pub fn parents_not_asked(file: &[u8], areas: &mut Arrays) -> u64 {
    match (boundary::read(file, areas), reader::read_whatever_parents(file)) {
        (6 | 10, Ok(mut region)) => {
            set_parents(&mut region);
            boundary::read(&file_of(&region), areas)
        }
        (number, _) => number,
    }
}

pub fn without_sum(file: &[u8], areas: &mut Arrays) -> u64 {
    boundary::read(&with_right_sum(file), areas)
}

pub fn line_end_added(file: &[u8], areas: &mut Arrays) -> u64 {
    boundary::read(&line_ended(file), areas)
}

pub fn old_form_taken(file: &[u8], areas: &mut Arrays) -> u64 {
    boundary::read(&in_new_form(file), areas)
}
