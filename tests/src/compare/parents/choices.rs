//! The parents that are made beside all others: every choice of parents for the same patient numbers that questions 6 and 10 accept has,
//! for each patient, at least these ancestors. All choices are tried.

use crate::compare::parents::{difference, read_back, written};
use crate::compare::report::{Difference, Tally};
use crate::compare::{ParentsCall, Tested};
use crate::generate::graphs::{self, Graph};
use crate::generate::parents::{fill, FILLED};
use crate::generate::spelling;
use crate::random::Random;
use crate::reader;
use crate::region::Region;

/// How many choices came up: such as do not pass, with just these ancestors, and with more.
#[derive(Default)]
struct Seen {
    refused: u64,
    just_these: u64,
    more: u64,
}

/// Every graph of one to five patients.
pub fn all_graphs(tested: Tested<ParentsCall>, seed: u64, _: usize) -> Result<Tally, Difference> {
    let mut tally = Tally::of(&format!("{}, all choices", tested.name));
    let mut random = Random::of(seed, "parents, all choices");
    let mut seen = Seen::default();
    for patients in 1..=5 {
        for region in graphs::all_of(patients, &mut random) {
            compare_choices(&mut tally, tested, region, &mut seen, &mut random)?;
        }
    }
    finished(tally, &seen)
}

/// Tables of one to four members, of six patients.
pub fn any_tables(tested: Tested<ParentsCall>, seed: u64, count: usize) -> Result<Tally, Difference> {
    let mut tally = Tally::of(&format!("{}, all choices, six patients", tested.name));
    let mut random = Random::of(seed, "parents, all choices, six patients");
    let mut seen = Seen::default();
    for _ in 0..count {
        let mut region = graphs::region(random.pick(&[Graph::Mixed, Graph::Fours, Graph::Groups]), 6, &mut random);
        region.tables.truncate(random.between(1, 5) as usize);
        compare_choices(&mut tally, tested, region, &mut seen, &mut random)?;
    }
    finished(tally, &seen)
}

fn finished(tally: Tally, seen: &Seen) -> Result<Tally, Difference> {
    let seen = [
        ("choices that do not pass", seen.refused),
        ("with just these ancestors", seen.just_these),
        ("with more", seen.more),
    ];
    tally.with_all(&[0])?.with_seen(&seen)
}

/// Makes the parents of a region, however they are filled in, and tries every choice. What is made is one of those that pass.
fn compare_choices(
    tally: &mut Tally,
    tested: Tested<ParentsCall>,
    mut region: Region,
    seen: &mut Seen,
    random: &mut Random,
) -> Result<(), Difference> {
    fill(&mut region, random.pick(&FILLED), random);
    let file = spelling::file_of(&region);
    let made = read_back(tally, tested, &file, &written(tally, tested, &file, random)?)?;
    let least = ancestors(&made);
    tally.count(0);
    let mut choice = vec![None; region.patients.len()];
    loop {
        region.patients.iter_mut().zip(&choice).for_each(|(patient, parent)| patient.parent = *parent);
        let others = ancestors(&region);
        let contained = others.len() == least.len() && least.iter().zip(&others).all(|(own, more)| own & !more == 0);
        match reader::judge(&region) {
            Ok(()) if !contained => return Err(fewer(tally, tested, &file, [&made, &region])),
            Ok(()) if others == least => seen.just_these += 1,
            Ok(()) => seen.more += 1,
            Err(_) => seen.refused += 1,
        }
        if !next_choice(&mut choice) {
            return Ok(());
        }
    }
}

fn fewer(tally: &Tally, tested: Tested<ParentsCall>, file: &[u8], regions: [&Region; 2]) -> Difference {
    let [made, chosen] = regions.map(|region| {
        let parents: Vec<Option<u64>> = region.patients.iter().map(|patient| patient.parent).collect();
        format!("{parents:?}")
    });
    let answers = vec![(tested.name.to_string(), made), ("pass too, with fewer ancestors".to_string(), chosen)];
    difference(tally, file, answers)
}

/// A bit for each ancestor of each patient; parents are in order.
fn ancestors(region: &Region) -> Vec<u64> {
    let mut sets: Vec<u64> = Vec::new();
    for patient in &region.patients {
        sets.push(patient.parent.map_or(0, |parent| sets[parent as usize] | 1 << parent));
    }
    sets
}

/// The choice after this one; false after the last. A patient has any earlier one as parent, or none.
fn next_choice(choice: &mut [Option<u64>]) -> bool {
    for (patient, parent) in (0..).zip(choice) {
        let next = parent.map_or(0, |parent| parent + 1);
        *parent = (next < patient).then_some(next);
        if parent.is_some() {
            return true;
        }
    }
    false
}
