//! Wrong calls of price, made from the proved one.

use crate::boundary;
use crate::compare::wrong::checks::line_ended;
use crate::compare::wrong::fixed_beds::{self, changed_file};
use crate::generate::spelling::with_right_sum;
use crate::reader;
use crate::region::Region;

/// The price of the plan in a region that was changed after reading.
fn of_changed(file: &[u8], plan: &[u8], result: &mut [u8], change: impl Fn(&mut Region)) -> u64 {
    boundary::price(&changed_file(file, change), plan, result)
}

/// Every forbidden entry becomes a price.
fn hyphens_become(region: &mut Region, price: u64) {
    for table in &mut region.tables {
        for entry in &mut table.entries {
            *entry = Some(entry.unwrap_or(price));
        }
    }
}

pub fn forbidden_for_nothing(file: &[u8], plan: &[u8], result: &mut [u8]) -> u64 {
    of_changed(file, plan, result, |region| hyphens_become(region, 0))
}

/// Not allowed, and yet the sum of the other entries.
pub fn forbidden_with_total(file: &[u8], plan: &[u8], result: &mut [u8]) -> u64 {
    let number = boundary::price(file, plan, result);
    if number == 0 && result[0] == 0 {
        of_changed(file, plan, result, |region| hyphens_become(region, 0));
        result[0] = 0;
    }
    number
}

pub fn without_last_table(file: &[u8], plan: &[u8], result: &mut [u8]) -> u64 {
    of_changed(file, plan, result, |region| drop(region.tables.pop()))
}

pub fn beds_below_16(file: &[u8], plan: &[u8], result: &mut [u8]) -> u64 {
    let patients = reader::read(file).map_or(0, |region| region.patients.len());
    match boundary::price(file, plan, result) {
        14 if plan.len() == patients && plan.iter().all(|bed| *bed < 16) => 0,
        number => number,
    }
}

pub fn longer_plan_cut(file: &[u8], plan: &[u8], result: &mut [u8]) -> u64 {
    let patients = reader::read(file).map_or(0, |region| region.patients.len());
    boundary::price(file, &plan[..plan.len().min(patients)], result)
}

pub fn short_result(file: &[u8], plan: &[u8], result: &mut [u8]) -> u64 {
    match boundary::price(file, plan, result) {
        12 if result.len() >= 8 => 0,
        number => number,
    }
}

pub fn result_left(file: &[u8], plan: &[u8], result: &mut [u8]) -> u64 {
    let before = result.to_vec();
    let number = boundary::price(file, plan, result);
    if number != 0 {
        result.copy_from_slice(&before);
    }
    number
}

pub fn result_first(file: &[u8], plan: &[u8], result: &mut [u8]) -> u64 {
    if result.len() < 16 {
        return 12;
    }
    boundary::price(file, plan, result)
}

pub fn without_sum(file: &[u8], plan: &[u8], result: &mut [u8]) -> u64 {
    boundary::price(&with_right_sum(file), plan, result)
}

pub fn line_end_added(file: &[u8], plan: &[u8], result: &mut [u8]) -> u64 {
    boundary::price(&line_ended(file), plan, result)
}

pub fn fixed_ignored(file: &[u8], plan: &[u8], result: &mut [u8]) -> u64 {
    of_changed(file, plan, result, fixed_beds::all_free)
}

pub fn first_fixed_alone(file: &[u8], plan: &[u8], result: &mut [u8]) -> u64 {
    of_changed(file, plan, result, fixed_beds::all_but_the_first_free)
}

pub fn last_fixed_ignored(file: &[u8], plan: &[u8], result: &mut [u8]) -> u64 {
    of_changed(file, plan, result, fixed_beds::last_free)
}

/// Is the plan allowed but for the fixed beds?
fn only_moved(file: &[u8], plan: &[u8]) -> bool {
    let allowed = |number: u64, result: [u8; 16]| number == 0 && result[0] == 1;
    let (mut as_fixed, mut free) = ([0; 16], [0; 16]);
    let number = boundary::price(file, plan, &mut as_fixed);
    !allowed(number, as_fixed) && allowed(fixed_ignored(file, plan, &mut free), free)
}

pub fn moved_is_14(file: &[u8], plan: &[u8], result: &mut [u8]) -> u64 {
    match boundary::price(file, plan, result) {
        0 if only_moved(file, plan) => 14,
        number => number,
    }
}

/// Not allowed, and yet the total.
pub fn moved_with_total(file: &[u8], plan: &[u8], result: &mut [u8]) -> u64 {
    let number = boundary::price(file, plan, result);
    if number == 0 && only_moved(file, plan) {
        fixed_ignored(file, plan, result);
        result[0] = 0;
    }
    number
}

/// Each fixed bed costs one.
pub fn fixed_costs(file: &[u8], plan: &[u8], result: &mut [u8]) -> u64 {
    let number = boundary::price(file, plan, result);
    if number == 0 && result[0] == 1 {
        let (_, total) = result[..16].split_at_mut(8);
        let more = reader::read(file).map_or(0, |region| fixed_beds::count(&region.patients));
        let sum = u64::from_le_bytes((&*total).try_into().expect("8 bytes")) + more;
        total.copy_from_slice(&sum.to_le_bytes());
    }
    number
}

/// A fixed bed is allowed even where the patient's own table forbids it.
pub fn fixed_over_forbidden(file: &[u8], plan: &[u8], result: &mut [u8]) -> u64 {
    of_changed(file, plan, result, |region| {
        for table in region.tables.iter_mut().filter(|table| table.members.len() == 1) {
            if let Some(bed) = region.patients[table.members[0] as usize].fixed {
                let entry = &mut table.entries[bed as usize];
                *entry = entry.or(Some(0));
            }
        }
    })
}

pub fn old_form_taken(file: &[u8], plan: &[u8], result: &mut [u8]) -> u64 {
    boundary::price(&fixed_beds::in_new_form(file), plan, result)
}
