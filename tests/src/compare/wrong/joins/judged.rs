//! Wrong calls of join that ask otherwise or tell another file, made from the proved one.

use crate::areas::Outputs;
use crate::boundary;
use crate::compare::wrong::checks::line_ended;
use crate::compare::wrong::fixed_beds::in_new_form;
use crate::generate::joins::together;
use crate::generate::spelling::{file_of, with_right_sum};
use crate::joining::{FIRST, NEITHER, RESULT_BYTES, SECOND};
use crate::plans;
use crate::reader;
use crate::region::Region;

/// Writes both numbers of a result area that has room for them.
fn tell(areas: &mut Outputs, count: u64, which: u64) {
    if let Some(numbers) = areas.result.lent().get_mut(..RESULT_BYTES) {
        numbers[..8].copy_from_slice(&count.to_le_bytes());
        numbers[8..].copy_from_slice(&which.to_le_bytes());
    }
}

/// The proved answer; on a refusal another file is told, of the number and the one that is due.
fn told(first: &[u8], second: &[u8], areas: &mut Outputs, which: impl Fn(u64, u64) -> u64) -> u64 {
    let number = boundary::join(first, second, areas);
    if number != 0 {
        let due = match (number, boundary::check(first)) {
            (1..=10, 0) => SECOND,
            (1..=10, _) => FIRST,
            _ => NEITHER,
        };
        tell(areas, 0, which(number, due));
    }
    number
}

pub fn files_exchanged(first: &[u8], second: &[u8], areas: &mut Outputs) -> u64 {
    told(first, second, areas, |_, which| [NEITHER, SECOND, FIRST][which as usize])
}

pub fn neither_always(first: &[u8], second: &[u8], areas: &mut Outputs) -> u64 {
    told(first, second, areas, |_, _| NEITHER)
}

pub fn counted_from_0(first: &[u8], second: &[u8], areas: &mut Outputs) -> u64 {
    told(first, second, areas, |_, which| which.saturating_sub(1))
}

/// Tells this file for this question of the later ones.
pub fn told_for<const QUESTION: u64, const WHICH: u64>(first: &[u8], second: &[u8], areas: &mut Outputs) -> u64 {
    told(first, second, areas, |number, which| if number == QUESTION { WHICH } else { which })
}

/// Where both are refused, the second is told.
pub fn second_told(first: &[u8], second: &[u8], areas: &mut Outputs) -> u64 {
    told(first, second, areas, |_, which| if boundary::check(second) != 0 { SECOND } else { which })
}

/// Gives another number instead, and the file told with it; the output area stays as it was.
fn refused(areas: &mut Outputs, number: u64, which: u64) -> u64 {
    tell(areas, 0, which);
    number
}

pub fn second_asked_first(first: &[u8], second: &[u8], areas: &mut Outputs) -> u64 {
    match boundary::check(second) {
        0 => boundary::join(first, second, areas),
        number => refused(areas, number, SECOND),
    }
}

/// Puts each question to both files before the next.
pub fn question_by_question(first: &[u8], second: &[u8], areas: &mut Outputs) -> u64 {
    match (boundary::check(first), boundary::check(second)) {
        (one, other) if one > other && other > 0 => refused(areas, other, SECOND),
        _ => boundary::join(first, second, areas),
    }
}

/// Says 0 where this question's "no" was the first, of this file or, for the later questions, of neither.
pub fn without<const QUESTION: u64, const WHICH: u64>(first: &[u8], second: &[u8], areas: &mut Outputs) -> u64 {
    let number = boundary::join(first, second, areas);
    let about_first = boundary::check(first) != 0;
    let which = if number > 10 { NEITHER } else { SECOND - u64::from(about_first) };
    if number == QUESTION && which == WHICH {
        return 0;
    }
    number
}

/// What the files say, however they would be judged.
fn said(first: &[u8], second: &[u8]) -> Option<(Region, Region)> {
    Some((reader::said(first)?, reader::said(second)?))
}

fn share_clinics(one: &Region, other: &Region) -> bool {
    one.clinics().iter().any(|clinic| other.clinics().contains(clinic))
}

/// Patients, tables and entries of both together.
fn sizes(one: &Region, other: &Region) -> [usize; 3] {
    let entries = |region: &Region| region.tables.iter().map(|table| table.entries.len()).sum::<usize>();
    [one.patients.len() + other.patients.len(), one.tables.len() + other.tables.len(), entries(one) + entries(other)]
}

fn too_large(one: &Region, other: &Region) -> bool {
    let [patients, tables, entries] = sizes(one, other);
    patients > 32 || tables > 64 || entries > 4_096
}

/// Would this later question of two files that are read be answered "no", were it asked?
fn answered_no(question: u64, one: &Region, other: &Region, areas: &Outputs) -> bool {
    match question {
        12 => areas.result.contents().len() < RESULT_BYTES,
        16 => share_clinics(one, other),
        17 => too_large(one, other),
        _ => areas.output.contents().len() < file_of(&together(one, other)).len(),
    }
}

/// Asks a later question before another one of them.
pub fn before<const QUESTION: u64, const OTHER: u64>(first: &[u8], second: &[u8], areas: &mut Outputs) -> u64 {
    let number = boundary::join(first, second, areas);
    match said(first, second) {
        Some((one, other)) if number == OTHER && answered_no(QUESTION, &one, &other, areas) => QUESTION,
        _ => number,
    }
}

/// Asks a later question before those of the files.
pub fn first_of_all<const QUESTION: u64>(first: &[u8], second: &[u8], areas: &mut Outputs) -> u64 {
    match said(first, second) {
        Some((one, other)) if answered_no(QUESTION, &one, &other, areas) => refused(areas, QUESTION, NEITHER),
        _ => boundary::join(first, second, areas),
    }
}

/// Asks a later question of what the files say between the questions of the first file and those of the second.
pub fn before_the_second<const QUESTION: u64>(first: &[u8], second: &[u8], areas: &mut Outputs) -> u64 {
    match boundary::check(first) {
        0 => first_of_all::<QUESTION>(first, second, areas),
        _ => boundary::join(first, second, areas),
    }
}

/// Asks 12 there, whatever the second file is.
pub fn twelve_between(first: &[u8], second: &[u8], areas: &mut Outputs) -> u64 {
    if boundary::check(first) == 0 && areas.result.contents().len() < RESULT_BYTES {
        return 12;
    }
    boundary::join(first, second, areas)
}

/// Goes on, where 16 was the first "no", unless this finds a clinic in common.
fn sixteen_if(first: &[u8], second: &[u8], areas: &mut Outputs, common: impl Fn(&Region, &Region) -> bool) -> u64 {
    match (boundary::join(first, second, areas), said(first, second)) {
        (16, Some((one, other))) if !common(&one, &other) => 0,
        (number, _) => number,
    }
}

/// The clinic of a region's first patient, or of its last.
fn clinic_at_end(region: &Region, last: bool) -> u64 {
    region.patients[if last { region.patients.len() - 1 } else { 0 }].clinic
}

/// Only the clinics of the first or last patients are compared, all of one file's with one of the other's.
pub fn sixteen_of_ends<const IN_FIRST: bool, const LAST: bool>(
    first: &[u8],
    second: &[u8],
    areas: &mut Outputs,
) -> u64 {
    sixteen_if(first, second, areas, |one, other| {
        let (all, end) = if IN_FIRST { (other, one) } else { (one, other) };
        all.clinics().contains(&clinic_at_end(end, LAST))
    })
}

/// Patient by patient, each with the one of the same number.
pub fn sixteen_side_by_side(first: &[u8], second: &[u8], areas: &mut Outputs) -> u64 {
    sixteen_if(first, second, areas, |one, other| {
        one.patients.iter().zip(&other.patients).any(|(patient, other)| patient.clinic == other.clinic)
    })
}

/// Clinic 0 is taken for none.
pub fn sixteen_but_for_0(first: &[u8], second: &[u8], areas: &mut Outputs) -> u64 {
    sixteen_if(first, second, areas, |one, other| {
        one.clinics().iter().any(|clinic| *clinic > 0 && other.clinics().contains(clinic))
    })
}

/// Refuses what would be fine.
fn refusing(
    first: &[u8],
    second: &[u8],
    areas: &mut Outputs,
    refusal: impl Fn(&Region, &Region, &Outputs) -> Option<u64>,
) -> u64 {
    let before = areas.clone();
    match (boundary::join(first, second, areas), said(first, second)) {
        (0, Some((one, other))) => match refusal(&one, &other, &before) {
            Some(number) => {
                areas.take(&before);
                refused(areas, number, NEITHER)
            }
            None => 0,
        },
        (number, _) => number,
    }
}

/// Clinics are compared in so few bits.
pub fn clinics_cut<const BITS: u32>(first: &[u8], second: &[u8], areas: &mut Outputs) -> u64 {
    let cut = |region: &Region| region.clinics().into_iter().map(|clinic| clinic % (1 << BITS)).collect::<Vec<u64>>();
    refusing(first, second, areas, |one, other, _| {
        cut(one).iter().any(|clinic| cut(other).contains(clinic)).then_some(16)
    })
}

/// Another limit of patients (0), tables (1) or entries (2) than the paper's.
pub fn limit<const OF: usize, const LIMIT: usize>(first: &[u8], second: &[u8], areas: &mut Outputs) -> u64 {
    let number = refusing(first, second, areas, |one, other, _| (sizes(one, other)[OF] > LIMIT).then_some(17));
    let only = |one: &Region, other: &Region| {
        let sizes = sizes(one, other);
        let others_fit = (0..3).all(|place| place == OF || sizes[place] <= [32, 64, 4_096][place]);
        others_fit && sizes[OF] <= LIMIT
    };
    match (number, said(first, second)) {
        (17, Some((one, other))) if only(&one, &other) => 0,
        _ => number,
    }
}

/// Where a region has no allowed plan, the two are refused.
pub fn thirteen(first: &[u8], second: &[u8], areas: &mut Outputs) -> u64 {
    let none = |region: &Region| plans::list(region).is_empty();
    refusing(first, second, areas, |one, other, _| (none(one) || none(other)).then_some(13))
}

/// 15 asks for an area that is long enough for every file.
pub fn room_for_all_asked(first: &[u8], second: &[u8], areas: &mut Outputs) -> u64 {
    refusing(first, second, areas, |_, _, areas| (areas.output.contents().len() < 35_038).then_some(15))
}

/// 15 asks for an area as long as both files.
pub fn room_for_both_asked(first: &[u8], second: &[u8], areas: &mut Outputs) -> u64 {
    let both = first.len() + second.len();
    refusing(first, second, areas, |_, _, areas| (areas.output.contents().len() < both).then_some(15))
}

pub fn room_one_byte_more(first: &[u8], second: &[u8], areas: &mut Outputs) -> u64 {
    refusing(first, second, areas, |one, other, areas| {
        (areas.output.contents().len() <= file_of(&together(one, other)).len()).then_some(15)
    })
}

pub fn room_one_byte_short(first: &[u8], second: &[u8], areas: &mut Outputs) -> u64 {
    match (boundary::join(first, second, areas), said(first, second)) {
        (15, Some((one, other))) if areas.output.contents().len() + 1 == file_of(&together(&one, &other)).len() => 0,
        (number, _) => number,
    }
}

/// One of the two files after a correction.
fn corrected(first: &[u8], second: &[u8], areas: &mut Outputs, which: u64, correct: impl Fn(&[u8]) -> Vec<u8>) -> u64 {
    match which {
        FIRST => boundary::join(&correct(first), second, areas),
        _ => boundary::join(first, &correct(second), areas),
    }
}

pub fn without_sum<const WHICH: u64>(first: &[u8], second: &[u8], areas: &mut Outputs) -> u64 {
    corrected(first, second, areas, WHICH, with_right_sum)
}

pub fn line_end_added<const WHICH: u64>(first: &[u8], second: &[u8], areas: &mut Outputs) -> u64 {
    corrected(first, second, areas, WHICH, line_ended)
}

pub fn old_form_taken<const WHICH: u64>(first: &[u8], second: &[u8], areas: &mut Outputs) -> u64 {
    corrected(first, second, areas, WHICH, in_new_form)
}
