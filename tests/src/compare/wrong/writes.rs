//! Wrong calls of write, made from the proved one or from the independent program.

use crate::areas::{Area, Outputs};
use crate::boundary;
use crate::compare::wrong::fixed_beds;
use crate::generate::spelling::{body_of, file_of, sum_of, with_stated_end};
use crate::lent::{numbers_in, Lent, ENTRY_COUNT, NONE, PATIENT_BYTES};
use crate::limits::HIGHEST_ENTRY;
use crate::outcomes;
use crate::region::Region;

/// Writes another file than the region's.
fn other_file(lent: &Lent, areas: &mut Outputs, file: impl Fn(&Region) -> Vec<u8>) -> u64 {
    let region = lent.region();
    let file = outcomes::file_of_lent(lent).map(|_| file(&region.expect("a region that is written")));
    outcomes::write(&file, areas)
}

/// Writes the file of a region that was changed after it was judged.
fn changed_region(lent: &Lent, areas: &mut Outputs, change: impl Fn(&mut Region)) -> u64 {
    other_file(lent, areas, |region| {
        let mut region = region.clone();
        change(&mut region);
        file_of(&region)
    })
}

/// An area with its numbers changed, each by its place among so many. An area that is not whole stays as it is.
fn changed(area: &Area, of: usize, change: impl Fn(usize, u64) -> u64) -> Area {
    if area.contents().len() % 8 != 0 {
        return area.clone();
    }
    Area::of_numbers(numbers_in(area).into_iter().enumerate().map(|(place, number)| change(place % of, number)))
}

/// The number in its low bits; what stands for none stays.
fn low_bits(number: u64, bits: u64) -> u64 {
    if number == NONE {
        return NONE;
    }
    number % (1 << bits)
}

pub fn patient_field_cut<const FIELD: usize, const BITS: u64>(lent: &Lent, areas: &mut Outputs) -> u64 {
    let cut = |field: usize, number: u64| if field == FIELD { low_bits(number, BITS) } else { number };
    boundary::write(&Lent { patients: changed(&lent.patients, 4, cut), ..lent.clone() }, areas)
}

/// The count of members is field 0, the members are the next.
pub fn table_field_cut<const FIELD: usize, const BITS: u64>(lent: &Lent, areas: &mut Outputs) -> u64 {
    let cut = |field: usize, number: u64| if field == FIELD { low_bits(number, BITS) } else { number };
    boundary::write(&Lent { tables: changed(&lent.tables, 6, cut), ..lent.clone() }, areas)
}

pub fn entries_cut<const BITS: u64>(lent: &Lent, areas: &mut Outputs) -> u64 {
    boundary::write(
        &Lent { entries: changed(&lent.entries, 1, |_, entry| low_bits(entry, BITS)), ..lent.clone() },
        areas,
    )
}

pub fn m_cut<const BITS: u64>(lent: &Lent, areas: &mut Outputs) -> u64 {
    boundary::write(&Lent { m: lent.m % (1 << BITS), ..lent.clone() }, areas)
}

/// The mark of 32 bits is taken as forbidden.
pub fn mark_forbidden(lent: &Lent, areas: &mut Outputs) -> u64 {
    let marked = |_: usize, entry: u64| if entry == u64::from(u32::MAX) { NONE } else { entry };
    boundary::write(&Lent { entries: changed(&lent.entries, 1, marked), ..lent.clone() }, areas)
}

/// A number is taken as none in this field of a patient.
fn taken_as_none(lent: &Lent, areas: &mut Outputs, in_field: usize, none: u64) -> u64 {
    let marked = |field: usize, number: u64| if field == in_field && number == none { NONE } else { number };
    boundary::write(&Lent { patients: changed(&lent.patients, 4, marked), ..lent.clone() }, areas)
}

/// The mark of 32 bits is taken as none, for a parent or a fixed bed.
pub fn mark_as_none<const FIELD: usize>(lent: &Lent, areas: &mut Outputs) -> u64 {
    taken_as_none(lent, areas, FIELD, u64::from(u32::MAX))
}

pub fn fixed_below_none_as_none(lent: &Lent, areas: &mut Outputs) -> u64 {
    taken_as_none(lent, areas, 3, NONE - 1)
}

/// Judges on, where the sum of the counts seems to be right in so few bits; question 8 is then the first to refuse.
pub fn sum_wrapping<const BITS: u32>(lent: &Lent, areas: &mut Outputs) -> u64 {
    let tables = numbers_in(&lent.tables);
    let sum = tables.chunks(6).filter_map(|table| table.get(ENTRY_COUNT)).fold(0u64, |sum, n| sum.wrapping_add(*n));
    let entries = lent.entries.contents().len() as u64;
    match boundary::write(lent, areas) {
        2 if entries % 8 == 0 && (sum.wrapping_sub(entries / 8)) << (64 - BITS) == 0 => 8,
        number => number,
    }
}

/// Says 0 where this question's "no" was the first.
pub fn without<const QUESTION: u64>(lent: &Lent, areas: &mut Outputs) -> u64 {
    match boundary::write(lent, areas) {
        number if number == QUESTION => 0,
        number => number,
    }
}

pub fn no_members_taken(lent: &Lent, areas: &mut Outputs) -> u64 {
    let none = |table: &[u64]| table[0] == 0;
    match boundary::write(lent, areas) {
        7 if numbers_in(&lent.tables).chunks(6).any(none) => 0,
        number => number,
    }
}

/// One of the most patients or tables is too many.
pub fn refusing_the_most<const PATIENTS: usize, const TABLES: usize>(lent: &Lent, areas: &mut Outputs) -> u64 {
    let counts = (lent.patients.contents().len() / PATIENT_BYTES, lent.tables.contents().len() / 48);
    match boundary::write(lent, areas) {
        0 if counts.0 == PATIENTS || counts.1 == TABLES => 5,
        number => number,
    }
}

/// Counts patients in so few bits.
pub fn patients_counted_in<const BITS: usize>(lent: &Lent, areas: &mut Outputs) -> u64 {
    let length = lent.patients.contents().len() % (PATIENT_BYTES << BITS);
    boundary::write(&Lent { patients: lent.patients.resized(length), ..lent.clone() }, areas)
}

/// Judges the places of members that are not there.
pub fn unused_judged(lent: &Lent, areas: &mut Outputs) -> u64 {
    let patients = (lent.patients.contents().len() / PATIENT_BYTES) as u64;
    let unknown = |table: &[u64]| table[1..ENTRY_COUNT].iter().any(|member| *member >= patients);
    match boundary::write(lent, areas) {
        0 if numbers_in(&lent.tables).chunks(6).any(unknown) => 7,
        number => number,
    }
}

pub fn members_first(lent: &Lent, areas: &mut Outputs) -> u64 {
    let too_many = |table: &[u64]| table[0] > 4;
    match boundary::write(lent, areas) {
        6 if numbers_in(&lent.tables).chunks(6).any(too_many) => 7,
        number => number,
    }
}

/// How long the file of the region would be, if it were not judged.
fn length_unjudged(lent: &Lent) -> usize {
    lent.region().map_or(0, |region| file_of(&region).len())
}

/// Asks 15 before this question.
pub fn room_before<const QUESTION: u64>(lent: &Lent, areas: &mut Outputs) -> u64 {
    match boundary::write(lent, areas) {
        number if number == QUESTION && length_unjudged(lent) > areas.output.contents().len() => 15,
        number => number,
    }
}

pub fn twelve_first(lent: &Lent, areas: &mut Outputs) -> u64 {
    if areas.result.contents().len() < 8 {
        return 12;
    }
    boundary::write(lent, areas)
}

pub fn room_one_byte_short(lent: &Lent, areas: &mut Outputs) -> u64 {
    match boundary::write(lent, areas) {
        15 if areas.output.contents().len() + 1 == length_unjudged(lent) => 0,
        number => number,
    }
}

pub fn room_one_byte_more(lent: &Lent, areas: &mut Outputs) -> u64 {
    let before = areas.clone();
    let number = boundary::write(lent, areas);
    if number == 0 && areas.counted().len() == areas.output.contents().len() {
        areas.take(&before);
        areas.result.lent()[..8].fill(0);
        return 15;
    }
    number
}

/// Writes as much as fits before it says 15.
pub fn written_on_15(lent: &Lent, areas: &mut Outputs) -> u64 {
    let number = boundary::write(lent, areas);
    if number == 15 {
        let file = outcomes::file_of_lent(lent).expect("a file that does not fit");
        let length = areas.output.contents().len();
        areas.output.lent().copy_from_slice(&file[..length]);
    }
    number
}

/// The byte after the file, where the output area has one.
pub fn byte_behind(lent: &Lent, areas: &mut Outputs) -> u64 {
    let number = boundary::write(lent, areas);
    let length = areas.counted().len();
    if let Some(byte) = areas.output.lent().get_mut(length).filter(|_| number == 0) {
        *byte = 0;
    }
    number
}

/// The byte after the output area.
pub fn spilling(lent: &Lent, areas: &mut Outputs) -> u64 {
    areas.output.spill();
    boundary::write(lent, areas)
}

pub fn result_left(lent: &Lent, areas: &mut Outputs) -> u64 {
    let before = areas.clone();
    let number = boundary::write(lent, areas);
    if number != 0 {
        areas.take(&before);
    }
    number
}

pub fn short_result_written(lent: &Lent, areas: &mut Outputs) -> u64 {
    let number = boundary::write(lent, areas);
    if areas.result.contents().len() < 8 {
        areas.result.lent().fill(0);
    }
    number
}

/// The byte count, highest byte first.
pub fn count_turned(lent: &Lent, areas: &mut Outputs) -> u64 {
    let number = boundary::write(lent, areas);
    if let Some(count) = areas.result.lent().get_mut(..8) {
        count.reverse();
    }
    number
}

pub fn sum_one_higher(lent: &Lent, areas: &mut Outputs) -> u64 {
    other_file(lent, areas, |region| {
        let body = body_of(region);
        with_stated_end(&body, sum_of(&body) + 1)
    })
}

pub fn end_line_missing(lent: &Lent, areas: &mut Outputs) -> u64 {
    other_file(lent, areas, body_of)
}

pub fn m_always_64(lent: &Lent, areas: &mut Outputs) -> u64 {
    changed_region(lent, areas, |region| region.m = 64)
}

/// Each patient has the parent of the one before it.
pub fn parents_shifted(lent: &Lent, areas: &mut Outputs) -> u64 {
    changed_region(lent, areas, |region| {
        for number in (1..region.patients.len()).rev() {
            region.patients[number].parent = region.patients[number - 1].parent;
        }
    })
}

pub fn last_entry_left_out(lent: &Lent, areas: &mut Outputs) -> u64 {
    changed_region(lent, areas, |region| {
        region.tables.last_mut().map(|table| table.entries.pop());
    })
}

pub fn hyphen_as_price(lent: &Lent, areas: &mut Outputs) -> u64 {
    changed_region(lent, areas, |region| {
        for table in &mut region.tables {
            table.entries.iter_mut().for_each(|entry| *entry = entry.or(Some(HIGHEST_ENTRY)));
        }
    })
}

pub fn tables_turned(lent: &Lent, areas: &mut Outputs) -> u64 {
    changed_region(lent, areas, |region| region.tables.reverse())
}

pub fn fixed_beds_dropped(lent: &Lent, areas: &mut Outputs) -> u64 {
    changed_region(lent, areas, fixed_beds::all_free)
}

/// Each patient has the fixed bed of the one before it.
pub fn fixed_beds_shifted(lent: &Lent, areas: &mut Outputs) -> u64 {
    changed_region(lent, areas, |region| {
        for number in (1..region.patients.len()).rev() {
            region.patients[number].fixed = region.patients[number - 1].fixed;
        }
    })
}

pub fn fixed_beds_and_parents_exchanged(lent: &Lent, areas: &mut Outputs) -> u64 {
    changed_region(lent, areas, |region| {
        region.patients.iter_mut().for_each(|patient| std::mem::swap(&mut patient.fixed, &mut patient.parent));
    })
}

/// Reads patients as they were lent before they had a fixed bed.
pub fn patients_of_24_bytes(lent: &Lent, areas: &mut Outputs) -> u64 {
    let numbers = numbers_in(&lent.patients);
    let with_fourth = |three: &[u64]| three.iter().copied().chain([NONE]).collect::<Vec<u64>>();
    let patients = match lent.patients.contents().len() % 24 {
        0 => Area::of_numbers(numbers.chunks(3).flat_map(with_fourth)),
        _ => lent.patients.resized(1),
    };
    boundary::write(&Lent { patients, ..lent.clone() }, areas)
}

/// Judges anew a region that question 6 was the first to refuse, after a change of it.
fn judged_after(lent: &Lent, areas: &mut Outputs, change: impl Fn(&mut Region)) -> u64 {
    match (boundary::write(lent, areas), lent.region()) {
        (6, Ok(mut region)) => {
            change(&mut region);
            boundary::write(&Lent::of(&region), areas)
        }
        (number, _) => number,
    }
}

pub fn bed_at_the_count_taken(lent: &Lent, areas: &mut Outputs) -> u64 {
    judged_after(lent, areas, fixed_beds::free_at_the_count)
}

pub fn last_fixed_bed_taken(lent: &Lent, areas: &mut Outputs) -> u64 {
    judged_after(lent, areas, fixed_beds::last_free)
}
