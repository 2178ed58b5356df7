//! Wrong calls of list, made from the proved one or from the independent program.

use crate::areas::Areas;
use crate::boundary;
use crate::compare::wrong::checks::line_ended;
use crate::compare::wrong::fixed_beds::{self, changed_file};
use crate::generate::fixed_beds::freed;
use crate::generate::spelling::with_right_sum;
use crate::limits::HIGHEST_ENTRY;
use crate::outcomes::Outcomes;
use crate::plans::{self, Row};
use crate::reader;
use crate::region::Region;

/// Writes other rows than the list's.
fn other_rows(file: &[u8], areas: &mut Areas, rows: impl Fn(&[Row]) -> Vec<Row>) -> u64 {
    Outcomes::of(file).rows_call(areas, |_| true, |_, list| rows(list))
}

pub fn falling_ties(file: &[u8], areas: &mut Areas) -> u64 {
    other_rows(file, areas, |list| {
        let mut rows = list.to_vec();
        rows.sort_by(|one, other| one.cost.cmp(&other.cost).then(other.beds.cmp(&one.beds)));
        rows
    })
}

pub fn last_lost(file: &[u8], areas: &mut Areas) -> u64 {
    other_rows(file, areas, |list| list[..list.len() - 1].to_vec())
}

/// The last row's count is lost; the rows stay.
pub fn last_lost_in_large(file: &[u8], areas: &mut Areas) -> u64 {
    let number = boundary::list(file, areas);
    areas.result.lent()[0] = areas.result.contents()[0].saturating_sub(1);
    number
}

/// Forbidden plans come into the list where the highest price seems cheap enough.
pub fn hyphen_as_price(file: &[u8], areas: &mut Areas) -> u64 {
    Outcomes::of(file).rows_call(
        areas,
        |_| true,
        |region, _| {
            let mut region = region.clone();
            for table in &mut region.tables {
                table.entries = table.entries.iter().map(|entry| entry.or(Some(HIGHEST_ENTRY))).collect();
            }
            plans::list(&region)
        },
    )
}

pub fn highest_byte_first(file: &[u8], areas: &mut Areas) -> u64 {
    other_rows(file, areas, |list| {
        list.iter().map(|row| Row { cost: row.cost.swap_bytes(), beds: row.beds.clone() }).collect()
    })
}

/// Zeros wherever the pattern stands, which has only bytes of 128 and more.
fn clear(bytes: &mut [u8]) {
    for byte in bytes.iter_mut().filter(|byte| **byte >= 128) {
        *byte = 0;
    }
}

pub fn beds_cleared(file: &[u8], areas: &mut Areas) -> u64 {
    let number = boundary::list(file, areas);
    if number == 0 {
        clear(areas.beds.lent());
    }
    number
}

pub fn costs_cleared(file: &[u8], areas: &mut Areas) -> u64 {
    let number = boundary::list(file, areas);
    if number == 0 {
        clear(areas.costs.lent());
    }
    number
}

pub fn spilling(file: &[u8], areas: &mut Areas) -> u64 {
    areas.beds.spill();
    boundary::list(file, areas)
}

pub fn thirteen_first(file: &[u8], areas: &mut Areas) -> u64 {
    match boundary::list(file, areas) {
        12 if Outcomes::of(file).rows().is_empty() => 13,
        number => number,
    }
}

pub fn short_costs(file: &[u8], areas: &mut Areas) -> u64 {
    let asked = reader::read(file).map_or(0, |region| region.m as usize * 4);
    match boundary::list(file, areas) {
        12 if areas.costs.contents().len() >= asked => 0,
        number => number,
    }
}

pub fn short_result_written(file: &[u8], areas: &mut Areas) -> u64 {
    let number = boundary::list(file, areas);
    if areas.result.contents().len() < 8 {
        areas.result.lent().fill(0);
    }
    number
}

pub fn result_left(file: &[u8], areas: &mut Areas) -> u64 {
    let before = areas.clone();
    let number = boundary::list(file, areas);
    if number != 0 {
        areas.take(&before);
    }
    number
}

pub fn without_sum(file: &[u8], areas: &mut Areas) -> u64 {
    boundary::list(&with_right_sum(file), areas)
}

pub fn line_end_added(file: &[u8], areas: &mut Areas) -> u64 {
    boundary::list(&line_ended(file), areas)
}

pub fn fixed_ignored(file: &[u8], areas: &mut Areas) -> u64 {
    boundary::list(&changed_file(file, fixed_beds::all_free), areas)
}

pub fn first_fixed_alone(file: &[u8], areas: &mut Areas) -> u64 {
    boundary::list(&changed_file(file, fixed_beds::all_but_the_first_free), areas)
}

pub fn last_fixed_ignored(file: &[u8], areas: &mut Areas) -> u64 {
    boundary::list(&changed_file(file, fixed_beds::last_free), areas)
}

/// Where the fixed beds leave no plan, patients are free.
pub fn fixed_ignored_for_13(file: &[u8], areas: &mut Areas) -> u64 {
    match boundary::list(file, areas) {
        13 => fixed_ignored(file, areas),
        number => number,
    }
}

/// Each fixed bed costs one.
pub fn fixed_costs(file: &[u8], areas: &mut Areas) -> u64 {
    let costing = |region: &Region, list: &[Row]| {
        let more = fixed_beds::count(&region.patients);
        list.iter().map(|row| Row { cost: row.cost + more, beds: row.beds.clone() }).collect()
    };
    Outcomes::of(file).rows_call(areas, |_| true, costing)
}

/// Behind the list come plans with other beds than the fixed ones.
pub fn moved_behind(file: &[u8], areas: &mut Areas) -> u64 {
    let with_moved = |region: &Region, list: &[Row]| {
        let others = plans::list(&freed(region)).into_iter().filter(|row| !list.contains(row));
        list.iter().cloned().chain(others).take(region.m as usize).collect()
    };
    Outcomes::of(file).rows_call(areas, |_| true, with_moved)
}

pub fn old_form_taken(file: &[u8], areas: &mut Areas) -> u64 {
    boundary::list(&fixed_beds::in_new_form(file), areas)
}
