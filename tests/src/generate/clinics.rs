//! Regions of the same kind as the script `make_region` makes, from random numbers of this project.
//! The script's own files can be given to the benchmark on its command line.

use crate::generate::parents::set_parents;
use crate::random::Random;
use crate::region::{Patient, Region, Table};

const HIGHEST_PRICE: u64 = 100;

/// `clinics` clinics of `patients` patients each, `beds` beds a patient. Each patient has a price
/// table of its own. Of the pairs within a clinic the share `density` has a table in which the same
/// bed twice is forbidden, and so is one entry in twenty.
#[derive(Clone, Copy, Debug)]
pub struct Parameters {
    pub clinics: u64,
    pub patients: u64,
    pub beds: u64,
    pub density: f64,
    pub m: u64,
}

pub fn region(parameters: Parameters, random: &mut Random) -> Region {
    let Parameters { clinics, patients, beds, density, m } = parameters;
    let count = clinics * patients;
    let mut region = Region { patients: Vec::new(), tables: Vec::new(), m };
    for number in 0..count {
        region.patients.push(Patient::of(number / patients, beds, None));
        let entries = (0..beds).map(|_| Some(random.between(0, HIGHEST_PRICE))).collect();
        region.tables.push(Table { members: vec![number], entries });
    }
    let mut pairs = pairs_within(clinics, patients);
    random.shuffle(&mut pairs);
    pairs.truncate((density * pairs.len() as f64).round() as usize);
    let mut room = 4_096 - count * beds;
    for members in pairs {
        if region.tables.len() == 64 || room < beds * beds {
            break;
        }
        room -= beds * beds;
        region.tables.push(Table { members, entries: pair_entries(beds, random) });
    }
    set_parents(&mut region);
    region
}

fn pairs_within(clinics: u64, patients: u64) -> Vec<Vec<u64>> {
    let mut pairs = Vec::new();
    for first in 0..clinics * patients {
        let clinic_end = (first / patients + 1) * patients;
        pairs.extend((first + 1..clinic_end).map(|second| vec![first, second]));
    }
    pairs
}

fn pair_entries(beds: u64, random: &mut Random) -> Vec<Option<u64>> {
    let mut entries = Vec::new();
    for one in 0..beds {
        for other in 0..beds {
            let forbidden = one == other || random.chance(5);
            entries.push((!forbidden).then(|| random.between(0, HIGHEST_PRICE)));
        }
    }
    entries
}
