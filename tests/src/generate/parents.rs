//! Parents for tables that are already chosen, right ones and others.

use crate::limits::HIGHEST_NUMBER;
use crate::random::Random;
use crate::region::{Region, Table};

/// From the last patient to the first over the graph of shared tables: the parent is the
/// highest-numbered earlier neighbour, and all earlier neighbours become neighbours of each other.
pub fn parents_of(patients: usize, tables: &[Table]) -> Vec<Option<u64>> {
    let mut near = vec![vec![false; patients]; patients];
    for table in tables {
        join_all(&mut near, &table.members.iter().map(|member| *member as usize).collect::<Vec<_>>());
    }
    let mut parents = vec![None; patients];
    for patient in (0..patients).rev() {
        let earlier: Vec<usize> = (0..patient).filter(|other| near[patient][*other]).collect();
        parents[patient] = earlier.last().map(|parent| *parent as u64);
        join_all(&mut near, &earlier);
    }
    parents
}

fn join_all(near: &mut [Vec<bool>], patients: &[usize]) {
    for one in patients {
        for other in patients {
            near[*one][*other] = true;
        }
    }
}

/// Sets parents that question 10 accepts for the region's tables.
pub fn set_parents(region: &mut Region) {
    let parents = parents_of(region.patients.len(), &region.tables);
    for (patient, parent) in region.patients.iter_mut().zip(parents) {
        patient.parent = parent;
    }
}

/// Gives some roots a parent: that only adds ancestors, so question 10 stays answered yes.
pub fn join_some_roots(region: &mut Region, percent: u64, random: &mut Random) {
    for number in 1..region.patients.len() {
        if region.patients[number].parent.is_none() && random.chance(percent) {
            region.patients[number].parent = Some(random.below(number) as u64);
        }
    }
}

/// The same region with every patient's parent the one before it.
pub fn chained(region: &Region) -> Region {
    let mut chained = region.clone();
    for (number, patient) in chained.patients.iter_mut().enumerate() {
        patient.parent = (number as u64).checked_sub(1);
    }
    chained
}

/// What may stand in the parent fields of a file.
#[derive(Clone, Copy, Debug, PartialEq)]
pub enum Filled {
    /// As they are made.
    Rightly,
    /// As they are made, and some roots have a parent too.
    WithMoreAncestors,
    Chained,
    NotAtAll,
    /// Any earlier patient or none: question 6 is answered yes, 10 mostly not.
    Earlier,
    Themselves,
    Later,
    /// The highest number that a file can have.
    Highest,
    /// As they are made but for one patient.
    OneWrong,
    Anyhow,
}

pub const FILLED: [Filled; 10] = [
    Filled::Rightly,
    Filled::WithMoreAncestors,
    Filled::Chained,
    Filled::NotAtAll,
    Filled::Earlier,
    Filled::Themselves,
    Filled::Later,
    Filled::Highest,
    Filled::OneWrong,
    Filled::Anyhow,
];

/// Fills in the parents of a region, whatever they were.
pub fn fill(region: &mut Region, filled: Filled, random: &mut Random) {
    set_parents(region);
    let one = random.below(region.patients.len());
    if filled == Filled::WithMoreAncestors {
        return join_some_roots(region, 50, random);
    }
    for (number, patient) in region.patients.iter_mut().enumerate() {
        let itself = number as u64;
        patient.parent = match filled {
            Filled::Rightly | Filled::WithMoreAncestors => patient.parent,
            Filled::Chained => itself.checked_sub(1),
            Filled::NotAtAll => None,
            Filled::Earlier => random.below(number + 1).checked_sub(1).map(|parent| parent as u64),
            Filled::Themselves => Some(itself),
            Filled::Later => Some(itself + random.between(1, 33)),
            Filled::Highest => Some(HIGHEST_NUMBER),
            Filled::OneWrong if number != one => patient.parent,
            Filled::OneWrong | Filled::Anyhow => any_parent(itself, random),
        };
    }
}

/// Any parent that the layout allows a patient, most of them near a limit.
pub fn any_parent(itself: u64, random: &mut Random) -> Option<u64> {
    let numbers = [0, 1, itself, itself + 1, 15, 16, 31, 32, 33, 255, 256, 65_536, HIGHEST_NUMBER];
    match random.below(3) {
        0 => None,
        1 => Some(random.between(0, itself)),
        _ => Some(random.pick(&numbers)),
    }
}
