//! Pairs of files that share a clinic, for demand 3: the same patients in the same order with the
//! same beds, the same fixed beds and the same tables among them, each as often. All else is drawn anew for each file.

use crate::generate::parents::{join_some_roots, set_parents};
use crate::generate::small::some_of;
use crate::random::Random;
use crate::region::{Patient, Region, Table};

/// Two regions that share a clinic, and its number in each: the same in most pairs.
pub struct Pair {
    pub one: (Region, u64),
    pub other: (Region, u64),
}

/// Patients, whose clinics and parents are given later, and tables over places: a table's members are places in `patients`.
struct Part {
    patients: Vec<Patient>,
    tables: Vec<Table>,
}

/// What the two files of a pair have in common.
#[derive(Clone, Copy, PartialEq)]
pub enum Sharing {
    /// Everything that demand 3 asks for.
    All,
    /// The clinic, but each file has a table that joins it to a patient elsewhere.
    Joined,
    /// The clinic without its fixed beds, which differ.
    FixedOtherwise,
}

/// The most patients of the shared clinic and elsewhere, beds a patient, and tables of each of the two.
#[derive(Clone, Copy)]
pub struct Sizes {
    patients: u64,
    strangers: u64,
    beds: u64,
    tables: u64,
}

/// Few enough plans to walk them.
pub const SMALL: Sizes = Sizes { patients: 3, strangers: 4, beds: 3, tables: 4 };

/// Far more plans than can be walked.
pub const LARGE: Sizes = Sizes { patients: 6, strangers: 20, beds: 5, tables: 12 };

/// A pair. Demand 3 says nothing of it where less than all is shared.
pub fn pair(sizes: Sizes, sharing: Sharing, random: &mut Random) -> Pair {
    let joined = sharing == Sharing::Joined;
    let clinic = random.between(0, 15);
    let other_clinic = if random.chance(75) { clinic } else { random.between(0, 15) };
    let patients = random.between(1, sizes.patients);
    let shared = part(patients, sizes, random);
    let strangers = |random: &mut Random| part(random.between(u64::from(joined), sizes.strangers), sizes, random);
    let one = around(&shared, &strangers(random), clinic, joined, random);
    let again = if sharing == Sharing::FixedOtherwise { fixed_otherwise(&shared, random) } else { shared };
    let other = around(&again, &strangers(random), other_clinic, joined, random);
    Pair { one: (one, clinic), other: (other, other_clinic) }
}

/// Patients with few beds, some of them fixed, and tables with many equal prices, some tables twice.
fn part(count: u64, sizes: Sizes, random: &mut Random) -> Part {
    let patients =
        fixed_anew((0..count).map(|_| Patient::of(0, random.between(1, sizes.beds), None)).collect(), random);
    let mut tables: Vec<Table> = Vec::new();
    for _ in 0..random.between(0, sizes.tables) {
        if patients.is_empty() {
            break;
        }
        if !tables.is_empty() && random.chance(25) {
            tables.push(tables[random.below(tables.len())].clone());
            continue;
        }
        let members = some_of((0..count).collect(), random.pick(&[1, 2, 2, 3]), random);
        let size = members.iter().map(|place| patients[*place as usize].beds).product();
        tables.push(Table { entries: entries(size, random), members });
    }
    Part { patients, tables }
}

/// The patients with fixed beds drawn anew; in half of all parts none.
fn fixed_anew(mut patients: Vec<Patient>, random: &mut Random) -> Vec<Patient> {
    let percent = random.pick(&[0, 0, 30, 60]);
    for patient in &mut patients {
        patient.fixed = random.chance(percent).then(|| random.between(0, patient.beds - 1));
    }
    patients
}

/// The same part with other fixed beds.
fn fixed_otherwise(part: &Part, random: &mut Random) -> Part {
    loop {
        let patients = fixed_anew(part.patients.clone(), random);
        if patients != part.patients {
            return Part { patients, tables: part.tables.clone() };
        }
    }
}

fn entries(size: u64, random: &mut Random) -> Vec<Option<u64>> {
    (0..size).map(|_| (!random.chance(12)).then(|| random.between(0, 4))).collect()
}

/// A region with the shared clinic, other patients put between its own, and tables in any order.
fn around(shared: &Part, rest: &Part, clinic: u64, joined: bool, random: &mut Random) -> Region {
    let all = shared.patients.len() + rest.patients.len();
    let numbers = some_of((0..all as u64).collect(), shared.patients.len(), random);
    let other_numbers: Vec<u64> = (0..all as u64).filter(|number| !numbers.contains(number)).collect();
    let blank = Patient::of(clinic, 0, None);
    let mut region = Region { patients: vec![blank; all], tables: Vec::new(), m: random.between(1, 64) };
    for (number, patient) in numbers.iter().zip(&shared.patients) {
        region.patients[*number as usize] = Patient { clinic, ..patient.clone() };
    }
    for (number, patient) in other_numbers.iter().zip(&rest.patients) {
        let elsewhere = (clinic + random.between(1, 3)) % 16;
        region.patients[*number as usize] = Patient { clinic: elsewhere, ..patient.clone() };
    }
    region.tables.extend(shared.tables.iter().map(|table| renumbered(table, &numbers)));
    region.tables.extend(rest.tables.iter().map(|table| renumbered(table, &other_numbers)));
    if joined {
        join(&mut region, random.pick(&numbers), random.pick(&other_numbers), random);
    }
    random.shuffle(&mut region.tables);
    set_parents(&mut region);
    join_some_roots(&mut region, 40, random);
    region
}

/// A table over places as a table over patient numbers. Rising places have rising numbers.
fn renumbered(table: &Table, numbers: &[u64]) -> Table {
    let members = table.members.iter().map(|place| numbers[*place as usize]).collect();
    Table { members, entries: table.entries.clone() }
}

fn join(region: &mut Region, inside: u64, outside: u64, random: &mut Random) {
    let members = vec![inside.min(outside), inside.max(outside)];
    let size = region.entries_over(&members);
    region.tables.push(Table { entries: entries(size, random), members });
}
