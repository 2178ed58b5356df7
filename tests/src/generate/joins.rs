//! Pairs of regions to join: with clinics of their own, with one in common, at the limits together and beyond them.

use crate::files::describe::{chain, flat_table};
use crate::generate::clinics::{self, Parameters};
use crate::generate::fixed_beds::fix_share;
use crate::generate::lent_faults::of_counts;
use crate::generate::small;
use crate::limits::HIGHEST_ENTRY;
use crate::random::Random;
use crate::region::{Patient, Region, Table};

/// The first region and the second.
pub type Pair = (Region, Region);

/// The region that two make.
pub fn together(first: &Region, second: &Region) -> Region {
    let v = first.patients.len() as u64;
    let mut both = first.clone();
    both.m = first.m.min(second.m);
    both.patients.extend(second.patients.iter().cloned().map(|patient| {
        let parent = patient.parent.map(|parent| parent + v);
        Patient { parent, ..patient }
    }));
    both.tables.extend(second.tables.iter().cloned().map(|table| {
        let members = table.members.iter().map(|member| member + v).collect();
        Table { members, ..table }
    }));
    both
}

fn entries(region: &Region) -> usize {
    region.tables.iter().map(|table| table.entries.len()).sum()
}

/// Gives the clinics of all regions new numbers, so that no two regions have one in common.
pub fn set_apart(regions: &mut [Region], random: &mut Random) {
    let mut unused: Vec<u64> = (0..16).collect();
    random.shuffle(&mut unused);
    for region in regions {
        let clinics = region.clinics();
        let numbers = unused.split_off(unused.len() - clinics.len());
        for patient in &mut region.patients {
            let place = clinics.iter().position(|clinic| *clinic == patient.clinic).expect("a clinic of the region");
            patient.clinic = numbers[place];
        }
    }
}

/// Leaves out last tables of the last region until all of them have few enough. Have they few enough patients too?
fn made_to_fit(regions: &mut [Region]) -> bool {
    let sum = |regions: &[Region], count: fn(&Region) -> usize| regions.iter().map(count).sum::<usize>();
    while sum(regions, |region| region.tables.len()) > 64 || sum(regions, entries) > 4_096 {
        let last = regions.iter_mut().rfind(|region| !region.tables.is_empty());
        last.expect("more tables than there may be").tables.pop();
    }
    sum(regions, |region| region.patients.len()) <= 32
}

/// So many small regions that can be joined, the first of the case's kind. Some have the same m.
pub fn small_regions<const COUNT: usize>(case: usize, random: &mut Random) -> [Region; COUNT] {
    loop {
        let mut regions: [Region; COUNT] = std::array::from_fn(|place| match place {
            0 => small::region(small::KINDS[case % small::KINDS.len()], random),
            _ => small::any_region(random),
        });
        if random.chance(20) {
            let m = regions[0].m;
            regions.iter_mut().for_each(|region| region.m = m);
        }
        if made_to_fit(&mut regions) {
            set_apart(&mut regions, random);
            return regions;
        }
    }
}

/// Two small regions that can be joined.
pub fn small(case: usize, random: &mut Random) -> Pair {
    small_regions::<2>(case, random).into()
}

/// Two small regions that can be joined, with few enough pairs of plans to walk them.
pub fn walkable(case: usize, random: &mut Random) -> Pair {
    const MOST_PAIRS: u64 = 8_192;
    loop {
        let (first, second) = small(case, random);
        if first.plan_count() * second.plan_count() <= MOST_PAIRS {
            return (first, second);
        }
    }
}

/// Far more plans than can be walked: of each region 16 patients, in half of the regions some of them in fixed beds.
pub fn large(random: &mut Random) -> Pair {
    let (clinics, patients, beds, density) = random.pick(&[(8, 2, 8, 1.0), (4, 4, 4, 0.6), (2, 8, 3, 0.25)]);
    let mut regions = [(); 2].map(|()| {
        let m = random.pick(&[1, 10, 63, 64]);
        let mut region = clinics::region(Parameters { clinics, patients, beds, density, m }, random);
        if random.chance(50) {
            fix_share(&mut region, random.pick(&[5, 20]), random);
        }
        region
    });
    set_apart(&mut regions, random);
    regions.into()
}

/// A patient of a chain, in the last bed.
fn link(number: u64, clinic: u64, beds: u64) -> Patient {
    Patient::of(clinic, beds, number.checked_sub(1)).staying_in(beds - 1)
}

/// Each region half of the most of everything. Each half's last patients have 16, 4, 1 and 1 beds.
pub fn halves() -> Pair {
    let half = |clinic: u64| {
        let beds_of = |number: u64| if number < 12 { 16 } else { [16, 4, 1, 1][number as usize - 12] };
        let patients = (0..16).map(|number| link(number, clinic, beds_of(number))).collect();
        Region { patients, tables: vec![flat_table(&[12, 13, 14, 15], HIGHEST_ENTRY, 64); 32], m: 64 }
    };
    (half(15), half(14))
}

/// A pair whose joined file is about as long as one can be: the most of everything, numbers of the most digits. The second has all
/// tables, over patients whose numbers then have two digits.
pub fn longest() -> Pair {
    let first = (0..28).map(|number| link(number, 15, 16)).collect();
    let second = (0..).zip([16, 4, 1, 1]).map(|(number, beds)| link(number, 14, beds)).collect();
    let tables = vec![flat_table(&[0, 1, 2, 3], HIGHEST_ENTRY, 64); 64];
    (Region { patients: first, tables: Vec::new(), m: 64 }, Region { patients: second, tables, m: 64 })
}

/// Two regions of several patients, each of whom has a clinic for itself.
pub fn of_own_clinics(random: &mut Random) -> Pair {
    let mut regions = [(); 2].map(|()| {
        let mut patients = chain(random.between(2, 8), 2);
        (0..).zip(&mut patients).for_each(|(clinic, patient)| patient.clinic = clinic);
        Region { patients, tables: Vec::new(), m: random.between(1, 64) }
    });
    set_apart(&mut regions, random);
    regions.into()
}

/// All patients of a region in one clinic.
pub fn in_clinic(clinic: u64, mut region: Region) -> Region {
    region.patients.iter_mut().for_each(|patient| patient.clinic = clinic);
    region
}

/// A region of clinic 0 with so many entries, at most 4,096, in at most three tables.
pub fn of_entries(count: u64) -> Region {
    let (high, middle, low) = (count / 256, count / 16 % 16, count % 16);
    let mut region = Region { patients: chain(5, 16), tables: Vec::new(), m: 64 };
    for (members, size) in [(&[0, 1, 2][..], high), (&[0, 3], middle), (&[4], low)] {
        if size > 0 {
            let last = *members.last().expect("a member");
            region.patients[last as usize].beds = size;
            let entries = region.entries_over(members) as usize;
            region.tables.push(flat_table(members, 0, entries));
        }
    }
    region
}

/// Two counts, each within a limit and together beyond it, by one or by many.
fn beyond(limit: u64, random: &mut Random) -> [u64; 2] {
    let first = random.between(1, limit);
    let least = limit + 1 - first;
    [first, if random.chance(50) { least } else { random.between(least, limit) }]
}

/// Each region is accepted; together they have too many patients, tables or entries.
pub fn too_large(random: &mut Random) -> Pair {
    let m = random.between(1, 64);
    let mut regions = match random.below(3) {
        0 => beyond(32, random).map(|patients| of_counts(patients as usize, 0, m)),
        1 => beyond(64, random).map(|tables| of_counts(1, tables as usize, m)),
        _ => beyond(4_096, random).map(of_entries),
    };
    set_apart(&mut regions, random);
    regions.into()
}

/// Pairs with their numbers: all limits reached, then in turn a patient, a table and some entries too many.
pub fn at_the_limits() -> [(Pair, u64); 5] {
    let with = |change: fn(&mut Region)| {
        let mut pair = halves();
        change(&mut pair.1);
        (pair, 17)
    };
    [
        (longest(), 0),
        (halves(), 0),
        with(|second| second.patients.push(Patient::of(14, 1, None))),
        with(|second| second.tables.splice(0..1, vec![flat_table(&[15], 0, 1); 2]).for_each(drop)),
        with(|second| second.tables[0] = flat_table(&[11, 12], 0, 256)),
    ]
}

/// A region of one patient, mostly of a clinic that the other has not, to join any file with.
pub fn partner(region: Option<&Region>, random: &mut Random) -> Region {
    let taken = region.map(Region::clinics).unwrap_or_default();
    let free: Vec<u64> = (0..16).filter(|clinic| !taken.contains(clinic)).collect();
    let clinic = if free.is_empty() || random.chance(10) { random.between(0, 15) } else { random.pick(&free) };
    let beds = random.between(1, 3);
    let tables = vec![flat_table(&[0], random.between(0, 9), beds as usize); random.below(2)];
    Region { patients: vec![Patient::of(clinic, beds, None)], tables, m: random.between(1, 64) }
}
