//! Fixed beds for patients that are already drawn.

use crate::random::Random;
use crate::region::{Region, Table};

/// Fixes the beds of a few patients, of all, or those of an entry that a table forbids, so that no plan is allowed.
pub fn fix_some(region: &mut Region, random: &mut Random) {
    match random.below(10) {
        0..=5 => fix_share(region, random.pick(&[10, 30, 60]), random),
        6 | 7 => fix_share(region, 100, random),
        _ => fix_forbidden(region, random),
    }
}

/// Fixes beds in so many of a hundred regions.
pub fn fix_sometimes(percent: u64, region: &mut Region, random: &mut Random) {
    if random.chance(percent) {
        fix_some(region, random);
    }
}

/// Each patient, with this chance, keeps any one of its beds.
pub fn fix_share(region: &mut Region, percent: u64, random: &mut Random) {
    for patient in &mut region.patients {
        patient.fixed = random.chance(percent).then(|| random.between(0, patient.beds - 1));
    }
}

/// The members of a forbidden entry keep its beds. Where nothing is forbidden, some patients keep any.
fn fix_forbidden(region: &mut Region, random: &mut Random) {
    let of_table = |table: &Table| (0..table.entries.len()).filter(|place| table.entries[*place].is_none()).collect();
    let forbidden: Vec<(usize, Vec<usize>)> = region
        .tables
        .iter()
        .map(of_table)
        .enumerate()
        .filter(|(_, places): &(_, Vec<usize>)| !places.is_empty())
        .collect();
    if forbidden.is_empty() {
        return fix_share(region, 50, random);
    }
    let (table, places) = &forbidden[random.below(forbidden.len())];
    let mut rest = random.pick(places) as u64;
    for member in region.tables[*table].members.clone().into_iter().rev() {
        let patient = &mut region.patients[member as usize];
        patient.fixed = Some(rest % patient.beds);
        rest /= patient.beds;
    }
}

/// The same region with no fixed bed.
pub fn freed(region: &Region) -> Region {
    let mut freed = region.clone();
    freed.patients.iter_mut().for_each(|patient| patient.fixed = None);
    freed
}
