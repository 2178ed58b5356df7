//! Wrong calls of check, made from the proved one.

use crate::boundary;
use crate::compare::wrong::fixed_beds;
use crate::generate::spelling::{file_of, with_right_sum};
use crate::reader;
use crate::region::Region;

/// Says 0 where this question's "no" was the first.
pub fn without<const QUESTION: u64>(file: &[u8]) -> u64 {
    match boundary::check(file) {
        number if number == QUESTION => 0,
        number => number,
    }
}

pub fn refusing_64(file: &[u8]) -> u64 {
    let first_line = file.split(|byte| *byte == b'\n').next().unwrap_or(file);
    match boundary::check(file) {
        0 if first_line.ends_with(b" 64)") => 5,
        number => number,
    }
}

pub fn one_byte_too_strict(file: &[u8]) -> u64 {
    if file.len() >= 65_535 {
        return 1;
    }
    boundary::check(file)
}

pub fn sum_first(file: &[u8]) -> u64 {
    match boundary::check(file) {
        3 if with_right_sum(file) != file => 4,
        number => number,
    }
}

pub fn capitals_taken(file: &[u8]) -> u64 {
    boundary::check(&file.to_ascii_lowercase())
}

pub fn line_end_added(file: &[u8]) -> u64 {
    boundary::check(&line_ended(file))
}

/// The file with a last line end, where it has none.
pub fn line_ended(file: &[u8]) -> Vec<u8> {
    let missing: &[u8] = if file.ends_with(b"\n") { b"" } else { b"\n" };
    [file, missing].concat()
}

/// Judges anew a file that question 6 was the first to refuse, after a change of its region.
fn judged_after(file: &[u8], change: impl Fn(&mut Region)) -> u64 {
    match (boundary::check(file), reader::said(file)) {
        (6, Some(mut region)) => {
            change(&mut region);
            boundary::check(&file_of(&region))
        }
        (number, _) => number,
    }
}

pub fn bed_at_the_count_taken(file: &[u8]) -> u64 {
    judged_after(file, fixed_beds::free_at_the_count)
}

pub fn beds_below_16_taken(file: &[u8]) -> u64 {
    judged_after(file, fixed_beds::free_below_16)
}

pub fn last_fixed_bed_taken(file: &[u8]) -> u64 {
    judged_after(file, fixed_beds::last_free)
}

pub fn first_fixed_bed_asked_alone(file: &[u8]) -> u64 {
    judged_after(file, fixed_beds::all_but_the_first_free)
}

/// Asks of fixed beds after all other questions.
pub fn fixed_beds_last(file: &[u8]) -> u64 {
    match judged_after(file, fixed_beds::all_free) {
        0 => boundary::check(file),
        number => number,
    }
}

pub fn old_form_taken(file: &[u8]) -> u64 {
    boundary::check(&fixed_beds::in_new_form(file))
}

pub fn fifth_field_passed_over(file: &[u8]) -> u64 {
    boundary::check(&fixed_beds::respelled(file, |fields| fields.truncate(4)))
}

/// Takes `00` and `01` for fixed beds.
pub fn leading_zero_taken(file: &[u8]) -> u64 {
    let led = |field: &str| field.len() > 1 && field.starts_with('0');
    boundary::check(&fixed_beds::respelled(file, |fields| match fields.get_mut(3) {
        Some(field) if led(field) => *field = field[1..].to_string(),
        _ => {}
    }))
}
