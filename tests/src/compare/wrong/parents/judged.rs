//! Wrong calls of parents that ask otherwise, made from the proved one.

use crate::areas::Outputs;
use crate::boundary;
use crate::compare::parents::RESULT_BYTES;
use crate::compare::wrong::checks::line_ended;
use crate::compare::wrong::fixed_beds::{in_new_form, respelled};
use crate::generate::parents::set_parents;
use crate::generate::spelling::{file_of, with_right_sum};
use crate::outcomes::write_result;
use crate::region::{Patient, Region};
use crate::{made_parents, plans, reader};

/// Says 0 where this question's "no" was the first.
pub fn without<const QUESTION: u64>(file: &[u8], areas: &mut Outputs) -> u64 {
    match boundary::parents(file, areas) {
        number if number == QUESTION => 0,
        number => number,
    }
}

/// Gives another number instead of writing; the output area stays as it was.
fn refused(areas: &mut Outputs, number: u64) -> u64 {
    write_result(areas.result.lent(), &[0]);
    number
}

/// Refuses with this number what would be fine, where this says so of the region and the areas.
fn refusing<const NUMBER: u64>(file: &[u8], areas: &mut Outputs, refuses: impl Fn(&Region, &Outputs) -> bool) -> u64 {
    let before = areas.clone();
    match (boundary::parents(file, areas), reader::said(file)) {
        (0, Some(region)) if refuses(&region, &before) => {
            areas.take(&before);
            refused(areas, NUMBER)
        }
        (number, _) => number,
    }
}

/// Questions that check asks of parents: 6 and 10 as they stand in document 01, 6 alone, 10 alone.
pub fn asks_as_check(file: &[u8], areas: &mut Outputs) -> u64 {
    match boundary::check(file) {
        0 => boundary::parents(file, areas),
        number => refused(areas, number),
    }
}

/// Is a patient's parent no earlier one?
fn out_of_order(region: &Region) -> bool {
    (0..).zip(&region.patients).any(|(number, patient)| patient.parent.is_some_and(|parent| parent >= number))
}

pub fn asks_order(file: &[u8], areas: &mut Outputs) -> u64 {
    refusing::<6>(file, areas, |region, _| out_of_order(region))
}

/// Question 6 asks for the order of parents before later questions are asked.
pub fn asks_order_first(file: &[u8], areas: &mut Outputs) -> u64 {
    match (boundary::parents(file, areas), reader::said(file)) {
        (7..=9, Some(region)) if out_of_order(&region) => 6,
        (number, _) => number,
    }
}

pub fn asks_ancestors(file: &[u8], areas: &mut Outputs) -> u64 {
    refusing::<10>(file, areas, |region, _| reader::judge(region) == Err(10))
}

/// Some parents are refused though the file could be written.
fn refusing_parents(file: &[u8], areas: &mut Outputs, refuses: impl Fn(u64, u64, usize) -> bool) -> u64 {
    refusing::<6>(file, areas, |region, _| {
        let wrong = |(number, patient): (u64, &Patient)| {
            patient.parent.is_some_and(|parent| refuses(number, parent, region.patients.len()))
        };
        (0..).zip(&region.patients).any(wrong)
    })
}

pub fn itself_refused(file: &[u8], areas: &mut Outputs) -> u64 {
    refusing_parents(file, areas, |number, parent, _| parent == number)
}

pub fn later_refused(file: &[u8], areas: &mut Outputs) -> u64 {
    refusing_parents(file, areas, |number, parent, count| parent > number && parent < count as u64)
}

pub fn nobody_refused(file: &[u8], areas: &mut Outputs) -> u64 {
    refusing_parents(file, areas, |_, parent, count| parent >= count as u64)
}

/// A parent has at most so many digits, else the layout is refused.
pub fn digits<const MOST: u32>(file: &[u8], areas: &mut Outputs) -> u64 {
    refusing::<2>(file, areas, |region, _| {
        region.patients.iter().any(|patient| patient.parent.is_some_and(|parent| parent >= 10u64.pow(MOST)))
    })
}

/// A hyphen is refused.
pub fn hyphen_refused(file: &[u8], areas: &mut Outputs) -> u64 {
    refusing::<2>(file, areas, |region, _| region.patients.iter().any(|patient| patient.parent.is_none()))
}

/// The parent field is not read: anything may stand there.
pub fn any_word_taken(file: &[u8], areas: &mut Outputs) -> u64 {
    let respelled = respelled(file, |fields| {
        if fields.len() == 4 {
            fields[2] = "-".to_string();
        }
    });
    match boundary::parents(file, areas) {
        2 => boundary::parents(&respelled, areas),
        number => number,
    }
}

/// Where parents are out of order, nothing else is asked of patients.
pub fn patients_not_asked(file: &[u8], areas: &mut Outputs) -> u64 {
    match (boundary::parents(file, areas), reader::said(file)) {
        (6, Some(region)) if out_of_order(&region) => 0,
        (number, _) => number,
    }
}

/// Question 6 asks nothing of one more field.
fn six_without(file: &[u8], areas: &mut Outputs, set_right: impl Fn(&mut Patient)) -> u64 {
    match (boundary::parents(file, areas), reader::said(file)) {
        (6, Some(mut region)) => {
            region.patients.iter_mut().for_each(set_right);
            boundary::parents(&file_of(&region), areas)
        }
        (number, _) => number,
    }
}

pub fn clinics_not_asked(file: &[u8], areas: &mut Outputs) -> u64 {
    six_without(file, areas, |patient| patient.clinic %= 16)
}

pub fn fixed_beds_not_asked(file: &[u8], areas: &mut Outputs) -> u64 {
    six_without(file, areas, |patient| patient.fixed = None)
}

pub fn bed_counts_not_asked(file: &[u8], areas: &mut Outputs) -> u64 {
    six_without(file, areas, |patient| patient.beds = patient.beds.clamp(1, 16))
}

/// Would this later question be answered "no", were it asked of what the file says?
fn answered_no(question: u64, file: &[u8], areas: &Outputs) -> bool {
    match (question, reader::said(file)) {
        (12, _) => areas.result.contents().len() < RESULT_BYTES,
        (_, Some(mut region)) => {
            let members = |member: &u64| (*member as usize) < region.patients.len();
            if region.tables.iter().all(|table| table.members.iter().all(members)) {
                set_parents(&mut region);
            }
            areas.output.contents().len() < file_of(&region).len()
        }
        (_, None) => false,
    }
}

/// Asks a later question before another.
pub fn before<const QUESTION: u64, const OTHER: u64>(file: &[u8], areas: &mut Outputs) -> u64 {
    match boundary::parents(file, areas) {
        number if number == OTHER && answered_no(QUESTION, file, areas) => QUESTION,
        number => number,
    }
}

/// Asks a later question before those of the file.
pub fn first_of_all<const QUESTION: u64>(file: &[u8], areas: &mut Outputs) -> u64 {
    if answered_no(QUESTION, file, areas) {
        return refused(areas, QUESTION);
    }
    boundary::parents(file, areas)
}

/// Gives another number than this one.
pub fn renumbered<const NUMBER: u64, const OTHER: u64>(file: &[u8], areas: &mut Outputs) -> u64 {
    match boundary::parents(file, areas) {
        number if number == NUMBER => OTHER,
        number => number,
    }
}

/// A region without an allowed plan is refused.
pub fn thirteen(file: &[u8], areas: &mut Outputs) -> u64 {
    refusing::<13>(file, areas, |region, _| region.plan_count() <= 2_048 && plans::list(region).is_empty())
}

/// 15 asks for an area that is long enough for every file.
pub fn room_for_all_asked(file: &[u8], areas: &mut Outputs) -> u64 {
    refusing::<15>(file, areas, |_, areas| areas.output.contents().len() < 35_038)
}

/// 15 asks for an area as long as the file that was read.
pub fn room_for_the_file_read_asked(file: &[u8], areas: &mut Outputs) -> u64 {
    refusing::<15>(file, areas, |_, areas| areas.output.contents().len() < file.len())
}

/// An area as long as the file that was read is always enough.
pub fn room_for_the_file_read_enough(file: &[u8], areas: &mut Outputs) -> u64 {
    match boundary::parents(file, areas) {
        15 if areas.output.contents().len() >= file.len() => 0,
        number => number,
    }
}

pub fn room_one_byte_more(file: &[u8], areas: &mut Outputs) -> u64 {
    let needed = made_parents::file(file).map_or(0, |made| made.len());
    refusing::<15>(file, areas, |_, areas| areas.output.contents().len() <= needed)
}

pub fn room_one_byte_short(file: &[u8], areas: &mut Outputs) -> u64 {
    let needed = made_parents::file(file).map_or(0, |made| made.len());
    match boundary::parents(file, areas) {
        15 if areas.output.contents().len() + 1 == needed => 0,
        number => number,
    }
}

/// A file that has its parents already is refused, as if nothing were to be done.
pub fn nothing_to_do_refused(file: &[u8], areas: &mut Outputs) -> u64 {
    refusing::<6>(file, areas, |region, _| {
        made_parents::by_paths(region).iter().eq(region.patients.iter().map(|p| &p.parent))
    })
}

pub fn without_sum(file: &[u8], areas: &mut Outputs) -> u64 {
    boundary::parents(&with_right_sum(file), areas)
}

pub fn line_end_added(file: &[u8], areas: &mut Outputs) -> u64 {
    boundary::parents(&line_ended(file), areas)
}

pub fn old_form_taken(file: &[u8], areas: &mut Outputs) -> u64 {
    boundary::parents(&in_new_form(file), areas)
}
