//! What read leaves of good files: regions of every kind, every value of each field, all counts of patients and tables.

use crate::areas::Arrays;
use crate::compare::read::{compare, Given};
use crate::compare::report::{Difference, Tally};
use crate::compare::{ReadCall, Tested};
use crate::files::describe::{chain, flat_table, full_table, root};
use crate::generate::graphs::{self, GRAPHS};
use crate::generate::lent_faults::{chain_of_counts, good_region};
use crate::generate::parents::{fill, Filled};
use crate::generate::{full_size, large, small};
use crate::limits::HIGHEST_ENTRY;
use crate::random::Random;
use crate::reading::MOST_BYTES;
use crate::region::{Patient, Region, Table};

/// Parents that check accepts.
const ACCEPTED: [Filled; 3] = [Filled::Rightly, Filled::WithMoreAncestors, Filled::Chained];

/// Small regions of every kind, such as every graph of tables makes, large ones, those of full size and the longest.
pub fn region(case: usize, random: &mut Random) -> Region {
    match case % 100 {
        10 => full_size::region(random),
        20 | 60 => large::region(random),
        30 => full_size::longest_region(),
        50 => full_size::longest_with_own_last_table(),
        70 => full_table(),
        _ if case % 4 == 1 => {
            let mut region = graphs::any_size(random.pick(&GRAPHS), random);
            fill(&mut region, random.pick(&ACCEPTED), random);
            region
        }
        _ => good_region(case, random),
    }
}

/// Each with areas that are just long enough, with such as are long enough for every file, and with others.
pub fn good_files(tested: Tested<ReadCall>, seed: u64, count: usize) -> Result<Tally, Difference> {
    let mut tally = Tally::of(&format!("{}, good files", tested.name));
    let mut random = Random::of(seed, "read, good files");
    let mut seen = Seen::default();
    for case in 0..count {
        let region = region(case, &mut random);
        let given = Given::of_region(&region);
        compare(&mut tally, tested, &given, given.exact(&mut random), Some(0))?;
        compare(&mut tally, tested, &given, given.near(&mut random), None)?;
        if case % 10 == 0 {
            compare(&mut tally, tested, &given, Arrays::patterned(MOST_BYTES, random.number()), Some(0))?;
        }
        seen.look_at(&region);
    }
    tally.with_all(&[0, 12])?.with_seen(&seen.told())
}

/// How many tables of one to four members, and how many of some kinds of patients, entries and files there were.
#[derive(Default)]
struct Seen {
    members: [u64; 4],
    roots: u64,
    below_the_first: u64,
    staying: u64,
    in_the_first_bed: u64,
    forbidden: u64,
    without_tables: u64,
}

impl Seen {
    fn look_at(&mut self, region: &Region) {
        let patients = |passes: fn(&Patient) -> bool| region.patients.iter().filter(|p| passes(p)).count() as u64;
        self.roots += patients(|patient| patient.parent.is_none());
        self.below_the_first += patients(|patient| patient.parent == Some(0));
        self.staying += patients(|patient| patient.fixed.is_some());
        self.in_the_first_bed += patients(|patient| patient.fixed == Some(0));
        self.without_tables += u64::from(region.tables.is_empty());
        for table in &region.tables {
            self.members[table.members.len() - 1] += 1;
            self.forbidden += table.entries.iter().filter(|entry| entry.is_none()).count() as u64;
        }
    }

    fn told(&self) -> [(&'static str, u64); 10] {
        [
            ("tables of 1 member", self.members[0]),
            ("2", self.members[1]),
            ("3", self.members[2]),
            ("4", self.members[3]),
            ("patients without a parent", self.roots),
            ("with parent 0", self.below_the_first),
            ("with a fixed bed", self.staying),
            ("with bed 0", self.in_the_first_bed),
            ("forbidden entries", self.forbidden),
            ("files without tables", self.without_tables),
        ]
    }
}

/// Every clinic, every bed count with every fixed bed, every m, every parent of every patient, and entries of each length.
pub fn fields(tested: Tested<ReadCall>, seed: u64, _: usize) -> Result<Tally, Difference> {
    let mut tally = Tally::of(&format!("{}, every value of a field", tested.name));
    let mut random = Random::of(seed, "read, every value of a field");
    let patients = beds_and_parents();
    let tables = entries_of_each_length();
    for region in patients.into_iter().chain(tables).chain((1..=64).map(|m| Region { m, ..full_of_clinics() })) {
        let given = Given::of_region(&region);
        compare(&mut tally, tested, &given, given.exact(&mut random), Some(0))?;
    }
    tally.with_all(&[0])
}

/// A patient of each clinic.
fn full_of_clinics() -> Region {
    Region { patients: (0..16).map(|clinic| root(15 - clinic, 1)).collect(), tables: Vec::new(), m: 1 }
}

fn beds_and_parents() -> Vec<Region> {
    let with = |patients: Vec<Patient>| Region { patients, tables: Vec::new(), m: 9 };
    let mut regions = Vec::new();
    for beds in 1..=16 {
        regions.push(with(vec![root(1, beds); 2]));
        regions.extend((0..beds).map(|bed| with(vec![root(2, beds), root(3, beds).staying_in(bed), root(4, beds)])));
    }
    for number in 0..32 {
        for parent in (0..number).map(Some).chain([None]) {
            let mut patients = chain(32, 1);
            patients[number as usize].parent = parent;
            regions.push(with(patients));
        }
    }
    regions
}

/// Two tables of two entries: the least and the highest number of so many digits, and a forbidden entry at each place.
fn entries_of_each_length() -> Vec<Region> {
    let highest = |digits: u32| (10u64.pow(digits) - 1).min(HIGHEST_ENTRY);
    let ends = (0..7).flat_map(|digits| [10u64.pow(digits), highest(digits + 1)]).chain([0]);
    let mut regions = Vec::new();
    for (place, price) in ends.enumerate() {
        let mut tables = vec![flat_table(&[0], price, 2), flat_table(&[1], price, 2)];
        tables[place / 2 % 2].entries[place % 2] = None;
        regions.push(Region { patients: chain(2, 2), tables: tables.clone(), m: 2 });
        tables.iter_mut().for_each(|table| table.entries = vec![Some(price), Some(HIGHEST_ENTRY - price)]);
        regions.push(Region { patients: chain(2, 2), tables, m: 2 });
    }
    regions
}

/// Every count of patients with every count of tables, and stores with every count of entries near those that fill it.
pub fn counts(tested: Tested<ReadCall>, seed: u64, _: usize) -> Result<Tally, Difference> {
    let mut tally = Tally::of(&format!("{}, counts", tested.name));
    let mut random = Random::of(seed, "read, counts");
    for patients in 1..=32 {
        for tables in 0..=64 {
            let given = Given::of_region(&chain_of_counts(patients, tables, &mut random));
            compare(&mut tally, tested, &given, given.exact(&mut random), Some(0))?;
        }
    }
    for entries in (1..=40).chain([255, 256, 257]).chain(4_060..=4_096) {
        let given = Given::of_region(&of_entries(entries, &mut random));
        compare(&mut tally, tested, &given, given.exact(&mut random), Some(0))?;
    }
    tally.with_all(&[0])
}

/// Patients of one to sixteen beds in a chain, and tables that have so many entries together, at most 4,096.
fn of_entries(entries: u64, random: &mut Random) -> Region {
    let patients: Vec<Patient> = (0..16).map(|n: u64| Patient::of(n, n + 1, n.checked_sub(1))).collect();
    let mut region = Region { patients, tables: Vec::new(), m: 1 };
    let mut missing = entries;
    while missing > 0 {
        let mut members = small::some_of((0..16).collect(), 3, random);
        while region.entries_over(&members) > missing {
            members.remove(0);
            if members.is_empty() {
                members.push(missing.min(16) - 1);
            }
        }
        missing -= region.entries_over(&members);
        let prices = (0..region.entries_over(&members)).map(|_| (!random.chance(9)).then(|| random.between(0, 999)));
        let table = Table { entries: prices.collect(), members };
        region.tables.push(table);
    }
    region
}
