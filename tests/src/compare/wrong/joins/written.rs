//! Wrong calls of join that judge rightly and write another file, made from the independent program.

use crate::areas::Outputs;
use crate::compare::wrong::fixed_beds;
use crate::generate::joins::together;
use crate::generate::spelling::{body_of, file_of, sum_of, with_end, with_stated_end, Draft};
use crate::joining::Joining;
use crate::limits::HIGHEST_ENTRY;
use crate::reader;
use crate::region::{Patient, Region, Table};

/// Writes another file than the joined one, made of the two regions.
fn other_file(first: &[u8], second: &[u8], areas: &mut Outputs, file: impl Fn(&Region, &Region) -> Vec<u8>) -> u64 {
    let region = |file: &[u8]| reader::read(file).expect("a file that is joined");
    Joining::of(first, second).with_file(|| file(&region(first), &region(second))).join(areas)
}

/// Writes the joined region's file after a change of it; the second's patients begin at the number given.
fn changed(first: &[u8], second: &[u8], areas: &mut Outputs, change: impl Fn(&mut Region, usize)) -> u64 {
    other_file(first, second, areas, |one, other| {
        let mut region = together(one, other);
        change(&mut region, one.patients.len());
        file_of(&region)
    })
}

/// Writes the joined file of regions of which the second was changed before.
fn second_changed(first: &[u8], second: &[u8], areas: &mut Outputs, change: impl Fn(&mut Region)) -> u64 {
    other_file(first, second, areas, |one, other| {
        let mut other = other.clone();
        change(&mut other);
        file_of(&together(one, &other))
    })
}

/// The same of the first.
fn first_changed(first: &[u8], second: &[u8], areas: &mut Outputs, change: impl Fn(&mut Region)) -> u64 {
    other_file(first, second, areas, |one, other| {
        let mut one = one.clone();
        change(&mut one);
        file_of(&together(&one, other))
    })
}

/// Another m, of the two.
fn with_m(first: &[u8], second: &[u8], areas: &mut Outputs, m: fn(u64, u64) -> u64) -> u64 {
    other_file(first, second, areas, |one, other| file_of(&Region { m: m(one.m, other.m), ..together(one, other) }))
}

pub fn m_of_the_first(first: &[u8], second: &[u8], areas: &mut Outputs) -> u64 {
    with_m(first, second, areas, |one, _| one)
}

pub fn m_of_the_second(first: &[u8], second: &[u8], areas: &mut Outputs) -> u64 {
    with_m(first, second, areas, |_, other| other)
}

pub fn m_larger(first: &[u8], second: &[u8], areas: &mut Outputs) -> u64 {
    with_m(first, second, areas, u64::max)
}

pub fn m_added(first: &[u8], second: &[u8], areas: &mut Outputs) -> u64 {
    with_m(first, second, areas, |one, other| (one + other).min(64))
}

pub fn m_always_64(first: &[u8], second: &[u8], areas: &mut Outputs) -> u64 {
    with_m(first, second, areas, |_, _| 64)
}

/// The parents of the second's patients, given the first's count of patients.
fn with_parents(
    first: &[u8],
    second: &[u8],
    areas: &mut Outputs,
    parent: impl Fn(Option<u64>, u64) -> Option<u64>,
) -> u64 {
    changed(first, second, areas, |region, v| {
        for patient in &mut region.patients[v..] {
            patient.parent = parent(patient.parent.map(|parent| parent - v as u64), v as u64);
        }
    })
}

pub fn parents_not_moved(first: &[u8], second: &[u8], areas: &mut Outputs) -> u64 {
    with_parents(first, second, areas, |parent, _| parent)
}

pub fn parents_one_short(first: &[u8], second: &[u8], areas: &mut Outputs) -> u64 {
    with_parents(first, second, areas, |parent, v| parent.map(|parent| parent + v - 1))
}

pub fn parents_dropped(first: &[u8], second: &[u8], areas: &mut Outputs) -> u64 {
    with_parents(first, second, areas, |_, _| None)
}

/// A root of the second hangs below the first's last patient, which changes no list.
pub fn roots_hung_up(first: &[u8], second: &[u8], areas: &mut Outputs) -> u64 {
    with_parents(first, second, areas, |parent, v| Some(parent.map_or(v - 1, |parent| parent + v)))
}

/// The members of the second's tables, given the first's count of patients.
fn with_members(first: &[u8], second: &[u8], areas: &mut Outputs, members: impl Fn(&[u64], u64) -> Vec<u64>) -> u64 {
    other_file(first, second, areas, |one, other| {
        let mut region = together(one, other);
        for (table, own) in region.tables[one.tables.len()..].iter_mut().zip(&other.tables) {
            table.members = members(&own.members, one.patients.len() as u64);
        }
        file_of(&region)
    })
}

pub fn members_not_moved(first: &[u8], second: &[u8], areas: &mut Outputs) -> u64 {
    with_members(first, second, areas, |members, _| members.to_vec())
}

pub fn members_one_short(first: &[u8], second: &[u8], areas: &mut Outputs) -> u64 {
    with_members(first, second, areas, |members, v| members.iter().map(|member| member + v - 1).collect())
}

pub fn first_member_alone_moved(first: &[u8], second: &[u8], areas: &mut Outputs) -> u64 {
    with_members(first, second, areas, |members, v| [&[members[0] + v], &members[1..]].concat())
}

pub fn last_member_not_moved(first: &[u8], second: &[u8], areas: &mut Outputs) -> u64 {
    with_members(first, second, areas, |members, v| {
        let (last, others) = members.split_last().expect("a member");
        others.iter().map(|member| member + v).chain([*last]).collect()
    })
}

pub fn second_fixed_beds_lost(first: &[u8], second: &[u8], areas: &mut Outputs) -> u64 {
    second_changed(first, second, areas, fixed_beds::all_free)
}

pub fn first_fixed_beds_lost(first: &[u8], second: &[u8], areas: &mut Outputs) -> u64 {
    first_changed(first, second, areas, fixed_beds::all_free)
}

pub fn last_fixed_bed_lost(first: &[u8], second: &[u8], areas: &mut Outputs) -> u64 {
    second_changed(first, second, areas, fixed_beds::last_free)
}

/// A fixed bed is moved as if it were a patient's number.
pub fn fixed_beds_moved(first: &[u8], second: &[u8], areas: &mut Outputs) -> u64 {
    changed(first, second, areas, |region, v| {
        region.patients[v..].iter_mut().for_each(|patient| patient.fixed = patient.fixed.map(|bed| bed + v as u64));
    })
}

/// A bed of the second is fixed where the first's patient of that number has it.
pub fn fixed_beds_of_the_first(first: &[u8], second: &[u8], areas: &mut Outputs) -> u64 {
    changed(first, second, areas, |region, v| {
        let (one, other) = region.patients.split_at_mut(v);
        other.iter_mut().zip(one).for_each(|(patient, earlier)| patient.fixed = earlier.fixed);
    })
}

/// The second before the first.
pub fn turned(first: &[u8], second: &[u8], areas: &mut Outputs) -> u64 {
    other_file(first, second, areas, |one, other| file_of(&together(other, one)))
}

pub fn tables_turned(first: &[u8], second: &[u8], areas: &mut Outputs) -> u64 {
    other_file(first, second, areas, |one, other| {
        let mut region = together(one, other);
        region.tables.rotate_left(one.tables.len());
        file_of(&region)
    })
}

pub fn clinics_moved(first: &[u8], second: &[u8], areas: &mut Outputs) -> u64 {
    second_changed(first, second, areas, |region| {
        region.patients.iter_mut().for_each(|patient| patient.clinic = (patient.clinic + 1) % 16);
    })
}

/// The second's tables take their entries from the beginning of the common store.
pub fn entries_of_the_first(first: &[u8], second: &[u8], areas: &mut Outputs) -> u64 {
    other_file(first, second, areas, |one, other| {
        let mut region = together(one, other);
        let store: Vec<Option<u64>> = region.tables.iter().flat_map(|table| table.entries.clone()).collect();
        let mut from_start = store.into_iter();
        for table in &mut region.tables[one.tables.len()..] {
            table.entries = from_start.by_ref().take(table.entries.len()).collect();
        }
        file_of(&region)
    })
}

pub fn hyphen_as_price(first: &[u8], second: &[u8], areas: &mut Outputs) -> u64 {
    second_changed(first, second, areas, |region| {
        for table in &mut region.tables {
            table.entries.iter_mut().for_each(|entry| *entry = entry.or(Some(HIGHEST_ENTRY)));
        }
    })
}

pub fn last_entry_otherwise(first: &[u8], second: &[u8], areas: &mut Outputs) -> u64 {
    second_changed(first, second, areas, |region| {
        if let Some(last) = region.tables.last_mut().and_then(|table| table.entries.last_mut()) {
            *last = Some(last.map_or(0, |price| price ^ 1));
        }
    })
}

pub fn last_table_lost(first: &[u8], second: &[u8], areas: &mut Outputs) -> u64 {
    second_changed(first, second, areas, |region| drop(region.tables.pop()))
}

pub fn first_tables_lost(first: &[u8], second: &[u8], areas: &mut Outputs) -> u64 {
    first_changed(first, second, areas, |region| region.tables.clear())
}

/// A table that the joined region has already is not written again.
pub fn repeated_tables_lost(first: &[u8], second: &[u8], areas: &mut Outputs) -> u64 {
    changed(first, second, areas, |region, _| {
        let mut tables: Vec<Table> = Vec::new();
        for table in region.tables.drain(..) {
            if !tables.contains(&table) {
                tables.push(table);
            }
        }
        region.tables = tables;
    })
}

/// Counts of beds are those of the first's patients of the same numbers.
pub fn beds_of_the_first(first: &[u8], second: &[u8], areas: &mut Outputs) -> u64 {
    changed(first, second, areas, |region, v| {
        let beds: Vec<u64> = region.patients[..v].iter().map(|patient| patient.beds).collect();
        region.patients[v..]
            .iter_mut()
            .zip(beds)
            .for_each(|(patient, beds)| *patient = Patient { beds, ..patient.clone() });
    })
}

/// The first line counts the first region alone.
pub fn counts_of_the_first(first: &[u8], second: &[u8], areas: &mut Outputs) -> u64 {
    other_file(first, second, areas, |one, other| {
        let (v, t) = (one.patients.len() as u64, one.tables.len() as u64);
        Draft { v, t, region: together(one, other) }.file()
    })
}

/// An end line that states another sum, of the joined lines and the lines of both.
fn with_sum(first: &[u8], second: &[u8], areas: &mut Outputs, sum: fn(&[u8], [&[u8]; 2]) -> u64) -> u64 {
    other_file(first, second, areas, |one, other| {
        let body = body_of(&together(one, other));
        with_stated_end(&body, sum(&body, [&body_of(one), &body_of(other)]))
    })
}

pub fn sum_one_higher(first: &[u8], second: &[u8], areas: &mut Outputs) -> u64 {
    with_sum(first, second, areas, |body, _| sum_of(body) + 1)
}

pub fn sums_added(first: &[u8], second: &[u8], areas: &mut Outputs) -> u64 {
    with_sum(first, second, areas, |_, both| both.into_iter().map(sum_of).sum::<u64>() % 65_521)
}

pub fn sum_of_the_first(first: &[u8], second: &[u8], areas: &mut Outputs) -> u64 {
    with_sum(first, second, areas, |_, [one, _]| sum_of(one))
}

/// The sum of all bytes as it is, which only a long file shows.
pub fn sum_not_reduced(first: &[u8], second: &[u8], areas: &mut Outputs) -> u64 {
    with_sum(first, second, areas, |body, _| body.iter().map(|byte| u64::from(*byte)).sum())
}

/// The lines of both files one after the other, patients and tables as they stand.
pub fn pasted(first: &[u8], second: &[u8], areas: &mut Outputs) -> u64 {
    other_file(first, second, areas, |one, other| with_end(&[body_of(one), body_of(other)].concat()))
}

pub fn end_line_missing(first: &[u8], second: &[u8], areas: &mut Outputs) -> u64 {
    other_file(first, second, areas, |one, other| body_of(&together(one, other)))
}
