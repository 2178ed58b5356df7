//! The words that files are described in.

use crate::region::{Patient, Region, Table};

/// A patient without a parent.
pub fn root(clinic: u64, beds: u64) -> Patient {
    Patient::of(clinic, beds, None)
}

pub fn child(clinic: u64, beds: u64, parent: u64) -> Patient {
    Patient::of(clinic, beds, Some(parent))
}

/// Patients of clinic 0, each the parent of the next.
pub fn chain(count: u64, beds: u64) -> Vec<Patient> {
    (0..count).map(|number| Patient::of(0, beds, number.checked_sub(1))).collect()
}

/// A table with its entries as they are written, `-` for a forbidden one.
pub fn table(members: &[u64], entries: &str) -> Table {
    let entry = |text: &str| (text != "-").then(|| text.parse().expect("an entry is a number or a hyphen"));
    Table { members: members.to_vec(), entries: entries.split_whitespace().map(entry).collect() }
}

/// A table in which every entry has one price.
pub fn flat_table(members: &[u64], price: u64, count: usize) -> Table {
    Table { members: members.to_vec(), entries: vec![Some(price); count] }
}

pub fn region(m: u64, patients: impl Into<Vec<Patient>>, tables: impl Into<Vec<Table>>) -> Region {
    Region { patients: patients.into(), tables: tables.into(), m }
}

/// One patient of clinic 0 with one bed, and m 1: the smallest region, for tables that are to be tried.
pub fn one_patient(tables: impl Into<Vec<Table>>) -> Region {
    region(1, [root(0, 1)], tables)
}

/// The small region that document 01 prints in full.
pub fn paper() -> Region {
    let tables = [table(&[0], "3 1"), table(&[0, 1], "0 2 1 -")];
    region(3, chain(2, 2), tables)
}

/// Patients 1 and 2 are both children of 0, and a table joins them.
pub fn siblings() -> Region {
    region(1, [root(0, 1), child(0, 1, 0), child(0, 1, 0)], [table(&[1, 2], "0")])
}

/// Three patients with 16 beds and a table over all three: the store is full.
pub fn full_table() -> Region {
    region(1, chain(3, 16), [flat_table(&[0, 1, 2], 0, 4_096)])
}
