//! Plans, the list and sheets as documents 01 and 02 define them, by walking all plans one by one.

use crate::region::{Region, Table};

/// A row: the cost, then the beds. Its derived order is the order of document 01: the lower cost
/// first, and at equal costs the smaller bed of the lowest-numbered patient whose beds differ.
#[derive(Clone, Debug, PartialEq, Eq, PartialOrd, Ord)]
pub struct Row {
    pub cost: u64,
    pub beds: Vec<u8>,
}

/// The entry of a table for a plan.
fn entry(region: &Region, table: &Table, plan: &[u8]) -> Option<u64> {
    let place = table.members.iter().fold(0, |place, member| {
        let member = *member as usize;
        place * region.patients[member].beds + u64::from(plan[member])
    });
    table.entries[place as usize]
}

/// Has every patient with a fixed bed that bed?
fn all_stay(region: &Region, plan: &[u8]) -> bool {
    plan.iter().zip(&region.patients).all(|(bed, patient)| patient.fixed.is_none_or(|fixed| u64::from(*bed) == fixed))
}

/// A plan's total, or `None` where it is not allowed: an entry is forbidden, or a patient has another bed than the fixed one.
pub fn total(region: &Region, plan: &[u8]) -> Option<u64> {
    if !all_stay(region, plan) {
        return None;
    }
    region.tables.iter().map(|table| entry(region, table, plan)).sum()
}

/// The plan after this one, the last patient's bed moving fastest; false after the last plan.
fn advance(region: &Region, plan: &mut [u8]) -> bool {
    for (bed, patient) in plan.iter_mut().zip(&region.patients).rev() {
        if u64::from(*bed) + 1 < patient.beds {
            *bed += 1;
            return true;
        }
        *bed = 0;
    }
    false
}

/// Every plan, allowed or not.
pub fn all_plans(region: &Region) -> Vec<Vec<u8>> {
    let mut plan = vec![0; region.patients.len()];
    let mut plans = vec![plan.clone()];
    while advance(region, &mut plan) {
        plans.push(plan.clone());
    }
    plans
}

/// The list: the first m allowed plans, or all of them if fewer.
pub fn list(region: &Region) -> Vec<Row> {
    let mut rows: Vec<Row> =
        all_plans(region).into_iter().filter_map(|beds| total(region, &beds).map(|cost| Row { cost, beds })).collect();
    rows.sort();
    rows.truncate(region.m as usize);
    rows
}

/// The sheet of a clinic: of the list's rows, each whose beds for the clinic's patients, taken
/// together, have not come before, with the clinic's own cost of that row.
pub fn sheet(region: &Region, list: &[Row], clinic: u64) -> Vec<Row> {
    let patients = region.patients_of(clinic);
    let mut rows: Vec<Row> = Vec::new();
    for row in list {
        let beds: Vec<u8> = patients.iter().map(|patient| row.beds[*patient]).collect();
        if rows.iter().all(|earlier| earlier.beds != beds) {
            rows.push(Row { cost: own_cost(region, clinic, &row.beds), beds });
        }
    }
    rows
}

/// The clinic that a table counts for: that of its lowest-numbered member.
pub fn clinic_of(region: &Region, table: &Table) -> u64 {
    let lowest = table.members.iter().min().expect("a table has members");
    region.patients[*lowest as usize].clinic
}

/// The clinic's share of an allowed plan's total: the sum over the tables that count for it.
pub fn own_cost(region: &Region, clinic: u64, plan: &[u8]) -> u64 {
    cost_of(region, plan, |table| clinic_of(region, table) == clinic)
}

/// The sum over some tables, for an allowed plan.
pub fn cost_of(region: &Region, plan: &[u8], counts: impl Fn(&Table) -> bool) -> u64 {
    let own = region.tables.iter().filter(|table| counts(table));
    own.map(|table| entry(region, table, plan).expect("the plan is allowed")).sum()
}
