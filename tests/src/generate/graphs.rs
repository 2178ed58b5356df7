//! Regions by the graph of their shared tables, whatever their parents are.

use crate::generate::fixed_beds::fix_sometimes;
use crate::generate::small::some_of;
use crate::limits::HIGHEST_ENTRY;
use crate::random::Random;
use crate::region::{Patient, Region, Table};

/// What the tables join.
#[derive(Clone, Copy, Debug, PartialEq)]
pub enum Graph {
    NoTables,
    /// Each table has one member.
    Singles,
    /// Each patient and the next.
    Chain,
    /// Each patient and the next, and the last with the first.
    Ring,
    /// All with the first.
    FromFirst,
    /// All with the last, so that all become neighbours of each other.
    FromLast,
    /// Each patient with an earlier one.
    Tree,
    /// Few pairs.
    Sparse,
    /// Many pairs.
    Dense,
    /// Groups of four by one table each, which may share a patient.
    Fours,
    /// Patients dealt to groups; pairs within them.
    Groups,
    /// Any members, one to four.
    Mixed,
}

pub const GRAPHS: [Graph; 12] = [
    Graph::NoTables,
    Graph::Singles,
    Graph::Chain,
    Graph::Ring,
    Graph::FromFirst,
    Graph::FromLast,
    Graph::Tree,
    Graph::Sparse,
    Graph::Dense,
    Graph::Fours,
    Graph::Groups,
    Graph::Mixed,
];

/// A region of so many patients with such a graph. No parent is filled in.
pub fn region(graph: Graph, patients: u64, random: &mut Random) -> Region {
    let mut members = members_of(graph, patients, random);
    if random.chance(30) {
        random.shuffle(&mut members);
    }
    let mut region = of_members(patients, &members, random);
    fix_sometimes(30, &mut region, random);
    region
}

/// A region of 1 to 32 patients, half of them with few.
pub fn any_size(graph: Graph, random: &mut Random) -> Region {
    let most = random.pick(&[8, 32]);
    let patients = random.between(1, most);
    region(graph, patients, random)
}

/// Patients with tables over these members. With one or two beds each, 64 tables never have too many entries.
fn of_members(patients: u64, members: &[Vec<u64>], random: &mut Random) -> Region {
    let patient = |random: &mut Random| Patient::of(random.between(0, 15), random.between(1, 2), None);
    let mut region = Region { patients: Vec::new(), tables: Vec::new(), m: random.between(1, 64) };
    region.patients.extend((0..patients).map(|_| patient(random)));
    for members in members {
        let price = |random: &mut Random| (!random.chance(10)).then(|| random.between(0, HIGHEST_ENTRY));
        let entries = (0..region.entries_over(members)).map(|_| price(random)).collect();
        region.tables.push(Table { members: members.clone(), entries });
    }
    region
}

/// The members of each table, at most 64 of them.
fn members_of(graph: Graph, patients: u64, random: &mut Random) -> Vec<Vec<u64>> {
    let behind_first = 1..patients;
    let mut members: Vec<Vec<u64>> = match graph {
        Graph::NoTables => Vec::new(),
        Graph::Singles => (0..patients).filter(|_| random.chance(70)).map(|patient| vec![patient]).collect(),
        Graph::Chain => behind_first.map(|patient| vec![patient - 1, patient]).collect(),
        Graph::Ring => behind_first.map(|one| vec![one - 1, one]).chain([vec![0, patients - 1]]).collect(),
        Graph::FromFirst => behind_first.map(|patient| vec![0, patient]).collect(),
        Graph::FromLast => (0..patients - 1).map(|patient| vec![patient, patients - 1]).collect(),
        Graph::Tree => behind_first.map(|patient| vec![random.between(0, patient - 1), patient]).collect(),
        Graph::Sparse => (0..patients / 2).map(|_| any_of(patients, 2, random)).collect(),
        Graph::Dense => (0..64).map(|_| any_of(patients, 2, random)).collect(),
        Graph::Fours => fours(patients, random),
        Graph::Groups => pairs_of_groups(patients, random),
        Graph::Mixed => {
            let count = random.between(1, 20);
            (0..count).map(|_| any_of(patients, random.between(1, 4) as usize, random)).collect()
        }
    };
    members.iter_mut().for_each(Vec::dedup);
    members.truncate(64);
    members
}

/// At most so many of the patients.
fn any_of(patients: u64, most: usize, random: &mut Random) -> Vec<u64> {
    some_of((0..patients).collect(), most, random)
}

/// Four patients in a row, the next four from the last of them on or behind it; all in a random order of the patients half of the time.
fn fours(patients: u64, random: &mut Random) -> Vec<Vec<u64>> {
    let mut order: Vec<u64> = (0..patients).collect();
    if random.chance(50) {
        random.shuffle(&mut order);
    }
    let step = random.pick(&[3, 4]);
    let group = |start: usize| {
        let mut members: Vec<u64> = order.iter().copied().skip(start).take(4).collect();
        members.sort();
        members
    };
    (0..order.len()).step_by(step).map(group).collect()
}

/// Patients dealt to two to five groups; of the pairs within a group two of five have a table.
fn pairs_of_groups(patients: u64, random: &mut Random) -> Vec<Vec<u64>> {
    let count = random.between(2, 5) as usize;
    let mut groups: Vec<Vec<u64>> = vec![Vec::new(); count];
    let mut pairs = Vec::new();
    for patient in 0..patients {
        let group = &mut groups[random.below(count)];
        for earlier in group.iter().filter(|_| random.chance(40)) {
            pairs.push(vec![*earlier, patient]);
        }
        group.push(patient);
    }
    pairs
}

/// Every graph of so many patients, at most 5, with a table of two members for each two that it joins.
pub fn all_of(patients: u64, random: &mut Random) -> Vec<Region> {
    let pairs: Vec<Vec<u64>> = (1..patients).flat_map(|two| (0..two).map(move |one| vec![one, two])).collect();
    let joined = |graph: u32| (0..).zip(&pairs).filter(move |(bit, _)| graph & 1 << bit != 0);
    (0..1 << pairs.len())
        .map(|graph| {
            let members: Vec<Vec<u64>> = joined(graph).map(|(_, pair)| pair.clone()).collect();
            of_members(patients, &members, random)
        })
        .collect()
}
