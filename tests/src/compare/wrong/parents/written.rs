//! Wrong calls of parents that judge rightly and write another file, made from the independent program.

use crate::areas::Outputs;
use crate::compare::wrong::fixed_beds;
use crate::generate::parents::{parents_of, set_parents};
use crate::generate::spelling::{body_of, file_of, sum_of, with_stated_end, Draft};
use crate::limits::HIGHEST_ENTRY;
use crate::outcomes;
use crate::reader;
use crate::region::{Region, Table};

/// Writes another file than the due one, made of the region that was read.
fn other_file(file: &[u8], areas: &mut Outputs, made: impl Fn(&Region) -> Vec<u8>) -> u64 {
    let read = reader::read_whatever_parents(file);
    outcomes::write(&read.map(|region| made(&region)), areas)
}

/// Writes the file with its parents made, after a change of the region.
fn changed(file: &[u8], areas: &mut Outputs, change: impl Fn(&mut Region)) -> u64 {
    other_file(file, areas, |region| {
        let mut made = region.clone();
        set_parents(&mut made);
        change(&mut made);
        file_of(&made)
    })
}

/// Writes the file with other parents, given those that stood in it and those that are due.
fn with_parents(
    file: &[u8],
    areas: &mut Outputs,
    parents: impl Fn(&Region, Vec<Option<u64>>) -> Vec<Option<u64>>,
) -> u64 {
    other_file(file, areas, |region| {
        let due = parents_of(region.patients.len(), &region.tables);
        let mut made = region.clone();
        made.patients.iter_mut().zip(parents(region, due)).for_each(|(patient, parent)| patient.parent = parent);
        file_of(&made)
    })
}

/// The same, patient by patient: a number, what stood there and what is due.
fn with_each(file: &[u8], areas: &mut Outputs, parent: impl Fn(u64, Option<u64>, Option<u64>) -> Option<u64>) -> u64 {
    with_parents(file, areas, |region, due| {
        let both = region.patients.iter().zip(due);
        (0..).zip(both).map(|(number, (patient, due))| parent(number, patient.parent, due)).collect()
    })
}

/// Parents made of other tables than the region's.
fn of_tables(file: &[u8], areas: &mut Outputs, tables: impl Fn(&Region) -> Vec<Table>) -> u64 {
    with_parents(file, areas, |region, _| parents_of(region.patients.len(), &tables(region)))
}

/// The same with each table's members changed; a table that is left without any is left out.
fn of_members(file: &[u8], areas: &mut Outputs, members: impl Fn(&Region, &[u64]) -> Vec<u64>) -> u64 {
    of_tables(file, areas, |region| {
        let changed = |table: &Table| Table { members: members(region, &table.members), entries: Vec::new() };
        region.tables.iter().map(changed).collect()
    })
}

/// Who share a table with a patient, whatever was joined since.
fn neighbours(region: &Region, patient: u64) -> impl Iterator<Item = u64> + '_ {
    let own = region.tables.iter().filter(move |table| table.members.contains(&patient));
    own.flat_map(|table| table.members.iter().copied())
}

pub fn as_it_stands(file: &[u8], areas: &mut Outputs) -> u64 {
    other_file(file, areas, |_| file.to_vec())
}

pub fn kept_where_in_order(file: &[u8], areas: &mut Outputs) -> u64 {
    with_each(file, areas, |number, stood, due| stood.filter(|parent| *parent < number).or(due))
}

/// Where check accepts the file, its parents are left.
pub fn kept_where_accepted(file: &[u8], areas: &mut Outputs) -> u64 {
    other_file(file, areas, |region| {
        let mut made = region.clone();
        if reader::judge(region).is_err() {
            set_parents(&mut made);
        }
        file_of(&made)
    })
}

pub fn only_missing_made(file: &[u8], areas: &mut Outputs) -> u64 {
    with_each(file, areas, |_, stood, due| stood.or(due))
}

/// A hyphen stays a hyphen.
pub fn missing_left(file: &[u8], areas: &mut Outputs) -> u64 {
    with_each(file, areas, |_, stood, due| stood.and(due))
}

pub fn last_left(file: &[u8], areas: &mut Outputs) -> u64 {
    with_parents(file, areas, |region, mut due| {
        due.pop();
        due.push(region.patients[region.patients.len() - 1].parent);
        due
    })
}

pub fn no_parents(file: &[u8], areas: &mut Outputs) -> u64 {
    with_each(file, areas, |_, _, _| None)
}

/// Every patient's parent is the one before it: check accepts it.
pub fn chained(file: &[u8], areas: &mut Outputs) -> u64 {
    with_each(file, areas, |number, _, _| number.checked_sub(1))
}

/// A patient without earlier neighbours hangs below the one before it.
pub fn roots_hung_up(file: &[u8], areas: &mut Outputs) -> u64 {
    with_each(file, areas, |number, _, due| due.or(number.checked_sub(1)))
}

pub fn counted_from_1(file: &[u8], areas: &mut Outputs) -> u64 {
    with_each(file, areas, |_, _, due| due.map(|parent| parent + 1))
}

pub fn zero_for_none(file: &[u8], areas: &mut Outputs) -> u64 {
    with_each(file, areas, |_, _, due| due.or(Some(0)))
}

pub fn none_for_zero(file: &[u8], areas: &mut Outputs) -> u64 {
    with_each(file, areas, |_, _, due| due.filter(|parent| *parent > 0))
}

/// A parent has one digit.
pub fn cut_to_a_digit(file: &[u8], areas: &mut Outputs) -> u64 {
    with_each(file, areas, |_, _, due| due.map(|parent| parent % 10))
}

pub fn highest_patient_left_out(file: &[u8], areas: &mut Outputs) -> u64 {
    with_each(file, areas, |number, _, due| due.filter(|_| number < 31))
}

/// The highest earlier neighbour by the tables alone.
pub fn neighbours_not_joined(file: &[u8], areas: &mut Outputs) -> u64 {
    with_parents(file, areas, |region, _| {
        let parent = |patient| neighbours(region, patient).filter(|other| *other < patient).max();
        (0..region.patients.len() as u64).map(parent).collect()
    })
}

/// A parent, chosen from a patient's earlier neighbours.
type Choice = fn(&[usize]) -> Option<usize>;

/// The parents, patient by patient in some order. Each time some of the earlier neighbours are joined.
fn made_in_order(
    region: &Region,
    order: impl Iterator<Item = usize>,
    parent: Choice,
    joined: fn(&[usize]) -> &[usize],
) -> Vec<Option<u64>> {
    let count = region.patients.len();
    let mut near = vec![vec![false; count]; count];
    let join = |near: &mut Vec<Vec<bool>>, some: &[usize]| {
        some.iter().for_each(|one| some.iter().for_each(|other| near[*one][*other] = true));
    };
    for table in &region.tables {
        join(&mut near, &table.members.iter().map(|member| *member as usize).collect::<Vec<_>>());
    }
    let mut parents = vec![None; count];
    for patient in order {
        let earlier: Vec<usize> = (0..patient).filter(|other| near[patient][*other]).collect();
        parents[patient] = parent(&earlier).map(|parent| parent as u64);
        join(&mut near, joined(&earlier));
    }
    parents
}

fn highest(earlier: &[usize]) -> Option<usize> {
    earlier.last().copied()
}

fn all(earlier: &[usize]) -> &[usize] {
    earlier
}

/// From the last patient to the first, with another choice of the parent or of those who are joined.
fn from_last(file: &[u8], areas: &mut Outputs, parent: Choice, joined: fn(&[usize]) -> &[usize]) -> u64 {
    with_parents(file, areas, |region, _| made_in_order(region, (0..region.patients.len()).rev(), parent, joined))
}

pub fn lowest_neighbour(file: &[u8], areas: &mut Outputs) -> u64 {
    from_last(file, areas, |earlier| earlier.first().copied(), all)
}

pub fn second_highest_neighbour(file: &[u8], areas: &mut Outputs) -> u64 {
    from_last(file, areas, |earlier| earlier.iter().rev().nth(1).or(earlier.first()).copied(), all)
}

pub fn first_to_last(file: &[u8], areas: &mut Outputs) -> u64 {
    with_parents(file, areas, |region, _| made_in_order(region, 0..region.patients.len(), highest, all))
}

fn but_the_highest(earlier: &[usize]) -> &[usize] {
    &earlier[..earlier.len().saturating_sub(1)]
}

fn two_highest(earlier: &[usize]) -> &[usize] {
    &earlier[earlier.len().saturating_sub(2)..]
}

/// All earlier neighbours but the parent are joined.
pub fn parent_not_joined(file: &[u8], areas: &mut Outputs) -> u64 {
    from_last(file, areas, highest, but_the_highest)
}

pub fn two_joined(file: &[u8], areas: &mut Outputs) -> u64 {
    from_last(file, areas, highest, two_highest)
}

/// Only the last patient's neighbours are joined.
pub fn joined_once(file: &[u8], areas: &mut Outputs) -> u64 {
    with_parents(file, areas, |region, _| {
        let mut tables = region.tables.clone();
        let last = region.patients.len() as u64 - 1;
        let earlier: Vec<u64> = neighbours(region, last).filter(|other| *other < last).collect();
        tables.push(Table { members: earlier, entries: Vec::new() });
        let joined = Region { tables, ..region.clone() };
        let parent = |patient| neighbours(&joined, patient).filter(|other| *other < patient).max();
        (0..=last).map(parent).collect()
    })
}

pub fn last_table_unseen(file: &[u8], areas: &mut Outputs) -> u64 {
    of_tables(file, areas, |region| region.tables.iter().rev().skip(1).cloned().collect())
}

pub fn first_table_unseen(file: &[u8], areas: &mut Outputs) -> u64 {
    of_tables(file, areas, |region| region.tables.iter().skip(1).cloned().collect())
}

pub fn only_pairs_seen(file: &[u8], areas: &mut Outputs) -> u64 {
    of_members(file, areas, |_, members| if members.len() == 2 { members.to_vec() } else { Vec::new() })
}

pub fn first_two_members_seen(file: &[u8], areas: &mut Outputs) -> u64 {
    of_members(file, areas, |_, members| members.iter().copied().take(2).collect())
}

/// Of a table the first and the last member are neighbours.
pub fn ends_seen(file: &[u8], areas: &mut Outputs) -> u64 {
    of_members(file, areas, |_, members| vec![members[0], members[members.len() - 1]])
}

pub fn fourth_member_unseen(file: &[u8], areas: &mut Outputs) -> u64 {
    of_members(file, areas, |_, members| members.iter().copied().take(3).collect())
}

/// Tables that join clinics are left out.
pub fn joining_tables_unseen(file: &[u8], areas: &mut Outputs) -> u64 {
    of_members(file, areas, |region, members| {
        let clinic = |member: u64| region.patients[member as usize].clinic;
        let within = members.iter().all(|member| clinic(*member) == clinic(members[0]));
        if within {
            members.to_vec()
        } else {
            Vec::new()
        }
    })
}

/// The patients of a clinic are neighbours, whether or not a table joins them.
pub fn clinics_joined(file: &[u8], areas: &mut Outputs) -> u64 {
    of_tables(file, areas, |region| {
        let clinic = |clinic: u64| {
            let members = region.patients_of(clinic).into_iter().map(|patient| patient as u64).collect();
            Table { members, entries: Vec::new() }
        };
        region.tables.iter().cloned().chain(region.clinics().into_iter().map(clinic)).collect()
    })
}

/// Patients who stay put are left out of the graph.
pub fn staying_left_out(file: &[u8], areas: &mut Outputs) -> u64 {
    of_members(file, areas, |region, members| {
        members.iter().copied().filter(|member| region.patients[*member as usize].fixed.is_none()).collect()
    })
}

/// Tables in which every entry is the same join nobody.
pub fn flat_tables_unseen(file: &[u8], areas: &mut Outputs) -> u64 {
    of_tables(file, areas, |region| {
        let tells = |table: &&Table| table.entries.iter().any(|entry| *entry != table.entries[0]);
        region.tables.iter().filter(tells).cloned().collect()
    })
}

pub fn fixed_beds_lost(file: &[u8], areas: &mut Outputs) -> u64 {
    changed(file, areas, fixed_beds::all_free)
}

pub fn last_fixed_bed_lost(file: &[u8], areas: &mut Outputs) -> u64 {
    changed(file, areas, fixed_beds::last_free)
}

pub fn fields_exchanged(file: &[u8], areas: &mut Outputs) -> u64 {
    changed(file, areas, |region| {
        region.patients.iter_mut().for_each(|patient| std::mem::swap(&mut patient.parent, &mut patient.fixed));
    })
}

pub fn m_always_64(file: &[u8], areas: &mut Outputs) -> u64 {
    changed(file, areas, |region| region.m = 64)
}

pub fn m_one_lower(file: &[u8], areas: &mut Outputs) -> u64 {
    changed(file, areas, |region| region.m = (region.m - 1).max(1))
}

pub fn clinics_moved(file: &[u8], areas: &mut Outputs) -> u64 {
    changed(file, areas, |region| region.patients.iter_mut().for_each(|p| p.clinic = (p.clinic + 1) % 16))
}

pub fn last_table_lost(file: &[u8], areas: &mut Outputs) -> u64 {
    changed(file, areas, |region| drop(region.tables.pop()))
}

pub fn tables_turned(file: &[u8], areas: &mut Outputs) -> u64 {
    changed(file, areas, |region| region.tables.reverse())
}

pub fn repeated_tables_lost(file: &[u8], areas: &mut Outputs) -> u64 {
    changed(file, areas, |region| {
        let mut tables: Vec<Table> = Vec::new();
        for table in region.tables.drain(..) {
            if !tables.contains(&table) {
                tables.push(table);
            }
        }
        region.tables = tables;
    })
}

pub fn hyphen_as_price(file: &[u8], areas: &mut Outputs) -> u64 {
    changed(file, areas, |region| {
        let entries = region.tables.iter_mut().flat_map(|table| &mut table.entries);
        entries.for_each(|entry| *entry = entry.or(Some(HIGHEST_ENTRY)));
    })
}

pub fn last_entry_otherwise(file: &[u8], areas: &mut Outputs) -> u64 {
    changed(file, areas, |region| {
        if let Some(last) = region.tables.last_mut().and_then(|table| table.entries.last_mut()) {
            *last = Some(last.map_or(0, |price| price ^ 1));
        }
    })
}

/// An end line that states another sum, of the lines that are written and of the file that was read.
fn with_sum(file: &[u8], areas: &mut Outputs, sum: fn(&[u8], &Region) -> u64) -> u64 {
    other_file(file, areas, |region| {
        let mut made = region.clone();
        set_parents(&mut made);
        let body = body_of(&made);
        with_stated_end(&body, sum(&body, region))
    })
}

pub fn sum_of_the_file_read(file: &[u8], areas: &mut Outputs) -> u64 {
    with_sum(file, areas, |_, region| sum_of(&body_of(region)))
}

pub fn sum_one_higher(file: &[u8], areas: &mut Outputs) -> u64 {
    with_sum(file, areas, |body, _| sum_of(body) + 1)
}

/// The sum of all bytes as it is, which only a long file shows.
pub fn sum_not_reduced(file: &[u8], areas: &mut Outputs) -> u64 {
    with_sum(file, areas, |body, _| body.iter().map(|byte| u64::from(*byte)).sum())
}

pub fn end_line_missing(file: &[u8], areas: &mut Outputs) -> u64 {
    other_file(file, areas, |region| {
        let mut made = region.clone();
        set_parents(&mut made);
        body_of(&made)
    })
}

/// The first line counts a patient too few.
pub fn count_one_lower(file: &[u8], areas: &mut Outputs) -> u64 {
    other_file(file, areas, |region| {
        let mut made = region.clone();
        set_parents(&mut made);
        Draft { v: made.patients.len() as u64 - 1, ..Draft::of(&made) }.file()
    })
}
