//! Wrong calls of sheet, made from the proved one or from the independent program.

use crate::areas::{Areas, Lengths};
use crate::boundary;
use crate::compare::wrong::checks::line_ended;
use crate::compare::wrong::fixed_beds::{self, changed_file};
use crate::generate::spelling::{file_of, with_right_sum};
use crate::outcomes::Outcomes;
use crate::plans::{self, Row};
use crate::reader;
use crate::region::{Patient, Region, Table};

/// Writes other rows than the sheet's.
fn other_rows(file: &[u8], clinic: u64, areas: &mut Areas, rows: impl Fn(&Region, &[Row]) -> Vec<Row>) -> u64 {
    let has_patient = |region: &Region| region.clinics().contains(&clinic);
    Outcomes::of(file).rows_call(areas, has_patient, rows)
}

/// Has the table a member in the clinic and one outside?
fn joins(region: &Region, table: &Table, clinic: u64) -> bool {
    let inside = |member: &u64| region.patients[*member as usize].clinic == clinic;
    table.members.iter().any(inside) && !table.members.iter().all(inside)
}

/// The clinic's beds of a row.
fn part(region: &Region, row: &Row, clinic: u64) -> Vec<u8> {
    region.patients_of(clinic).iter().map(|patient| row.beds[*patient]).collect()
}

/// The sheet's rows, each with a cost that is worked out from the list's first row with those beds.
fn recosted(region: &Region, list: &[Row], clinic: u64, cost: impl Fn(&Row, &Row) -> u64) -> Vec<Row> {
    let mut rows = plans::sheet(region, list, clinic);
    for row in &mut rows {
        let first = list.iter().find(|plan| part(region, plan, clinic) == row.beds).expect("of the list");
        row.cost = cost(row, first);
    }
    rows
}

/// The sheet's rows, each with the cost of the tables that count in the list's first row with those beds.
fn counted(region: &Region, list: &[Row], clinic: u64, counts: impl Fn(&Table) -> bool) -> Vec<Row> {
    recosted(region, list, clinic, |_, plan| plans::cost_of(region, &plan.beds, &counts))
}

pub fn joining_for_nobody(file: &[u8], clinic: u64, areas: &mut Areas) -> u64 {
    other_rows(file, clinic, areas, |region, list| {
        counted(region, list, clinic, |table| {
            plans::clinic_of(region, table) == clinic && !joins(region, table, clinic)
        })
    })
}

pub fn joining_for_all(file: &[u8], clinic: u64, areas: &mut Areas) -> u64 {
    other_rows(file, clinic, areas, |region, list| {
        counted(region, list, clinic, |table| plans::clinic_of(region, table) == clinic || joins(region, table, clinic))
    })
}

pub fn highest_member(file: &[u8], clinic: u64, areas: &mut Areas) -> u64 {
    other_rows(file, clinic, areas, |region, list| {
        let highest = |table: &Table| *table.members.iter().max().expect("a table has members") as usize;
        counted(region, list, clinic, |table| region.patients[highest(table)].clinic == clinic)
    })
}

/// The sheet's rows, each with one of the own costs that the list's rows with those beds have.
fn one_of_its_costs(region: &Region, list: &[Row], clinic: u64, choose: impl Fn(&[u64]) -> u64) -> Vec<Row> {
    let mut rows = plans::sheet(region, list, clinic);
    for row in &mut rows {
        let alike = list.iter().filter(|plan| part(region, plan, clinic) == row.beds);
        let costs: Vec<u64> = alike.map(|plan| plans::own_cost(region, clinic, &plan.beds)).collect();
        row.cost = choose(&costs);
    }
    rows
}

pub fn cost_of_the_last_row(file: &[u8], clinic: u64, areas: &mut Areas) -> u64 {
    let last = |costs: &[u64]| costs[costs.len() - 1];
    other_rows(file, clinic, areas, |region, list| one_of_its_costs(region, list, clinic, last))
}

pub fn least_cost(file: &[u8], clinic: u64, areas: &mut Areas) -> u64 {
    let least = |costs: &[u64]| *costs.iter().min().expect("of the list");
    other_rows(file, clinic, areas, |region, list| one_of_its_costs(region, list, clinic, least))
}

pub fn total_as_cost(file: &[u8], clinic: u64, areas: &mut Areas) -> u64 {
    other_rows(file, clinic, areas, |region, list| recosted(region, list, clinic, |_, plan| plan.cost))
}

pub fn repeats_kept(file: &[u8], clinic: u64, areas: &mut Areas) -> u64 {
    other_rows(file, clinic, areas, |region, list| {
        list.iter().flat_map(|row| plans::sheet(region, std::slice::from_ref(row), clinic)).collect()
    })
}

pub fn equal_costs_dropped(file: &[u8], clinic: u64, areas: &mut Areas) -> u64 {
    other_rows(file, clinic, areas, |region, list| {
        let mut rows = plans::sheet(region, list, clinic);
        rows.dedup_by_key(|row| row.cost);
        rows
    })
}

pub fn neighbours_compared(file: &[u8], clinic: u64, areas: &mut Areas) -> u64 {
    other_rows(file, clinic, areas, |region, list| {
        let one = |row| plans::sheet(region, std::slice::from_ref(row), clinic);
        let mut rows: Vec<Row> = list.iter().flat_map(one).collect();
        rows.dedup();
        rows
    })
}

/// Each row filled up to V bytes.
pub fn rows_as_in_list(file: &[u8], clinic: u64, areas: &mut Areas) -> u64 {
    other_rows(file, clinic, areas, |region, list| {
        let mut rows = plans::sheet(region, list, clinic);
        rows.iter_mut().for_each(|row| row.beds.resize(region.patients.len(), 0));
        rows
    })
}

pub fn clinic_cut<const BITS: u64>(file: &[u8], clinic: u64, areas: &mut Areas) -> u64 {
    boundary::sheet(file, clinic % (1 << BITS), areas)
}

pub fn spilling(file: &[u8], clinic: u64, areas: &mut Areas) -> u64 {
    areas.costs.spill();
    boundary::sheet(file, clinic, areas)
}

/// Are the areas shorter than asked for, beds apart, where `beds` bytes of those are enough?
fn too_short(areas: &Areas, asked: Lengths, beds: usize) -> bool {
    areas.beds.contents().len() < beds
        || areas.costs.contents().len() < asked.costs
        || areas.result.contents().len() < asked.result
}

pub fn twelve_first(file: &[u8], clinic: u64, areas: &mut Areas) -> u64 {
    let asked = reader::read(file).map(|region| Lengths::asked(region.m, region.patients.len()));
    match (boundary::sheet(file, clinic, areas), asked) {
        (11, Ok(asked)) if too_short(areas, asked, asked.beds) => 12,
        (number, _) => number,
    }
}

pub fn short_beds(file: &[u8], clinic: u64, areas: &mut Areas) -> u64 {
    let number = boundary::sheet(file, clinic, areas);
    let Ok(region) = reader::read(file) else { return number };
    let asked = Lengths::asked(region.m, region.patients.len());
    let enough = region.m as usize * region.patients_of(clinic).len();
    match number {
        12 if !too_short(areas, asked, enough) => 0,
        number => number,
    }
}

pub fn result_left(file: &[u8], clinic: u64, areas: &mut Areas) -> u64 {
    let before = areas.clone();
    let number = boundary::sheet(file, clinic, areas);
    if number != 0 {
        areas.take(&before);
    }
    number
}

pub fn no_rows(file: &[u8], clinic: u64, areas: &mut Areas) -> u64 {
    other_rows(file, clinic, areas, |_, _| Vec::new())
}

pub fn always_13(_: &[u8], _: u64, areas: &mut Areas) -> u64 {
    areas.result.lent().fill(0);
    13
}

pub fn joining_left_out(file: &[u8], clinic: u64, areas: &mut Areas) -> u64 {
    let Ok(mut region) = reader::read(file) else { return boundary::sheet(file, clinic, areas) };
    let whole = region.clone();
    region.tables.retain(|table| !joins(&whole, table, clinic));
    boundary::sheet(&file_of(&region), clinic, areas)
}

/// The first row's cost has the number of all patients in it.
pub fn cost_with_patients(file: &[u8], clinic: u64, areas: &mut Areas) -> u64 {
    let number = boundary::sheet(file, clinic, areas);
    if number == 0 {
        areas.costs.lent()[7] = reader::read(file).map_or(0, |region| region.patients.len() as u8);
    }
    number
}

/// The last row's count is lost; the rows stay.
pub fn last_lost_in_large(file: &[u8], clinic: u64, areas: &mut Areas) -> u64 {
    let number = boundary::sheet(file, clinic, areas);
    areas.result.lent()[0] = areas.result.contents()[0].saturating_sub(1);
    number
}

pub fn without_sum(file: &[u8], clinic: u64, areas: &mut Areas) -> u64 {
    boundary::sheet(&with_right_sum(file), clinic, areas)
}

pub fn line_end_added(file: &[u8], clinic: u64, areas: &mut Areas) -> u64 {
    boundary::sheet(&line_ended(file), clinic, areas)
}

pub fn fixed_ignored(file: &[u8], clinic: u64, areas: &mut Areas) -> u64 {
    boundary::sheet(&changed_file(file, fixed_beds::all_free), clinic, areas)
}

pub fn first_fixed_alone(file: &[u8], clinic: u64, areas: &mut Areas) -> u64 {
    boundary::sheet(&changed_file(file, fixed_beds::all_but_the_first_free), clinic, areas)
}

pub fn fixed_elsewhere_ignored(file: &[u8], clinic: u64, areas: &mut Areas) -> u64 {
    boundary::sheet(&changed_file(file, |region| fixed_beds::free_elsewhere(region, clinic)), clinic, areas)
}

/// Each fixed bed of the clinic costs one.
pub fn fixed_costs(file: &[u8], clinic: u64, areas: &mut Areas) -> u64 {
    other_rows(file, clinic, areas, |region, list| {
        let inside: Vec<Patient> = region.patients.iter().filter(|patient| patient.clinic == clinic).cloned().collect();
        let more = fixed_beds::count(&inside);
        recosted(region, list, clinic, |row, _| row.cost + more)
    })
}

/// The first row's cost has the number of all fixed beds in it.
pub fn cost_with_fixed_beds(file: &[u8], clinic: u64, areas: &mut Areas) -> u64 {
    let number = boundary::sheet(file, clinic, areas);
    if number == 0 {
        areas.costs.lent()[7] = reader::read(file).map_or(0, |region| fixed_beds::count(&region.patients) as u8);
    }
    number
}

pub fn old_form_taken(file: &[u8], clinic: u64, areas: &mut Areas) -> u64 {
    boundary::sheet(&fixed_beds::in_new_form(file), clinic, areas)
}
