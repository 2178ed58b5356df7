//! What join refuses: each number for either file, the order of the questions, clinics in common, and sizes beside the limits.

use crate::areas::Outputs;
use crate::compare::join::{compare, Files, SOME};
use crate::compare::report::{Difference, Tally};
use crate::compare::{JoinCall, Tested};
use crate::generate::joins::{self, in_clinic, Pair};
use crate::generate::lent_faults::of_counts;
use crate::generate::{damage, faults, faulty, layout_faults, small, spelling};
use crate::joining::{FIRST, NEITHER, RESULT_BYTES, SECOND};
use crate::numbers;
use crate::random::Random;
use crate::region::Region;

/// The questions that follow those of the files, in their order.
const LATER: [u64; 4] = [12, 16, 17, 15];

/// A file of which this question, 1 to 10, is the first that is answered "no".
fn file_with(question: u64, random: &mut Random) -> Vec<u8> {
    match question {
        1 => faults::too_long(random),
        2 => layout_faults::file(random),
        _ => faults::file_with_fault(question, random),
    }
}

fn good_file(random: &mut Random) -> Vec<u8> {
    spelling::file_of(&small::any_region(random))
}

/// Any file: good, faulty, or no file at all.
fn any_file(random: &mut Random) -> Vec<u8> {
    match random.below(5) {
        0 => faulty::file(random.below(12), random),
        1 => damage::random_bytes(random),
        2 => Vec::new(),
        _ => good_file(random),
    }
}

/// Each number of 1 to 10 for the first file, whatever the second is, and for the second behind one that is accepted.
pub fn either_file(tested: Tested<JoinCall>, seed: u64, count: usize) -> Result<Tally, Difference> {
    let mut tally = Tally::of(&format!("{}, either file", tested.name));
    let mut random = Random::of(seed, "join, either file");
    for _ in 0..count {
        for question in numbers::OF_FILES {
            let first = Files::of(file_with(*question, &mut random), any_file(&mut random));
            compare(&mut tally, tested, &first, first.near(&mut random), Some((*question, FIRST)))?;
            let second = Files::of(good_file(&mut random), file_with(*question, &mut random));
            compare(&mut tally, tested, &second, second.near(&mut random), Some((*question, SECOND)))?;
        }
    }
    tally.with_all(numbers::OF_FILES)
}

/// Two "no": the one that comes first in the call's order gives the number, and says which file.
pub fn two_faults(tested: Tested<JoinCall>, seed: u64, count: usize) -> Result<Tally, Difference> {
    let mut tally = Tally::of(&format!("{}, two faults", tested.name));
    let mut random = Random::of(seed, "join, two faults");
    for _ in 0..count {
        compare_two_files(&mut tally, tested, &mut random)?;
        for (place, one) in LATER.iter().enumerate() {
            for other in &LATER[place + 1..] {
                for _ in 0..8 {
                    compare_later(&mut tally, tested, &[*one, *other], &mut random)?;
                }
            }
            compare_later(&mut tally, tested, &LATER[place..], &mut random)?;
        }
    }
    tally.with_all(&[1, 2, 3, 4, 5, 6, 7, 8, 9, 10, 12, 15, 16, 17])
}

/// A first file of each number with a second of each; and either of them with a good one and areas that are too short.
fn compare_two_files(tally: &mut Tally, tested: Tested<JoinCall>, random: &mut Random) -> Result<(), Difference> {
    let mut faulty = || numbers::OF_FILES.iter().map(|question| file_with(*question, random)).collect::<Vec<_>>();
    let (firsts, seconds) = (faulty(), faulty());
    for (number, first) in numbers::OF_FILES.iter().zip(&firsts) {
        for second in &seconds {
            let files = Files::of(first.clone(), second.clone());
            compare(tally, tested, &files, files.exact(random), Some((*number, FIRST)))?;
        }
        let before = Files::of(first.clone(), good_file(random));
        let behind = Files::of(good_file(random), first.clone());
        for (output, result) in [(SOME, random.below(RESULT_BYTES)), (0, RESULT_BYTES)] {
            let areas = Outputs::patterned(output, result, random.number());
            compare(tally, tested, &before, areas.clone(), Some((*number, FIRST)))?;
            compare(tally, tested, &behind, areas, Some((*number, SECOND)))?;
        }
    }
    Ok(())
}

/// Good files with these faults of the later questions; the first is the answer.
fn compare_later(
    tally: &mut Tally,
    tested: Tested<JoinCall>,
    faults: &[u64],
    random: &mut Random,
) -> Result<(), Difference> {
    let has = |question: u64| faults.contains(&question);
    let mut pair = if has(17) { joins::too_large(random) } else { joins::small(random.below(13), random) };
    if has(16) {
        share_a_clinic(&mut pair, random);
    }
    // What the file would need, were it written.
    let needed = spelling::file_of(&joins::together(&pair.0, &pair.1)).len();
    let output = if has(15) { random.below(needed) } else { needed };
    let result = if has(12) { random.below(RESULT_BYTES) } else { RESULT_BYTES };
    let areas = Outputs::patterned(output, result, random.number());
    compare(tally, tested, &Files::of_pair(&pair), areas, Some((faults[0], NEITHER))).map(drop)
}

fn share_a_clinic((first, second): &mut Pair, random: &mut Random) {
    let place = random.below(second.patients.len());
    second.patients[place].clinic = first.patients[random.below(first.patients.len())].clinic;
}

/// Regions with clinics of their own; then with one in common, at the first, the last or another patient of either. Every two
/// clinics of one patient each. Every file with itself.
pub fn clinics(tested: Tested<JoinCall>, seed: u64, count: usize) -> Result<Tally, Difference> {
    let mut tally = Tally::of(&format!("{}, clinics", tested.name));
    let mut random = Random::of(seed, "join, clinics");
    let mut try_pair = |pair: &Pair, number: u64, random: &mut Random| {
        let files = Files::of_pair(pair);
        compare(&mut tally, tested, &files, files.exact(random), Some((number, NEITHER))).map(drop)
    };
    for one in 0..16 {
        for other in 0..16 {
            let pair = (in_clinic(one, of_counts(1, 0, 1)), in_clinic(other, of_counts(1, 0, 1)));
            try_pair(&pair, if one == other { 16 } else { 0 }, &mut random)?;
        }
    }
    for _ in 0..count {
        let apart = joins::of_own_clinics(&mut random);
        try_pair(&apart, 0, &mut random)?;
        for place in places(&apart.0, &mut random) {
            for other in places(&apart.1, &mut random) {
                let mut pair = apart.clone();
                pair.1.patients[other].clinic = pair.0.patients[place].clinic;
                try_pair(&pair, 16, &mut random)?;
            }
        }
        let region = small::any_region(&mut random);
        try_pair(&(region.clone(), region), 16, &mut random)?;
    }
    tally.with_all(&[0, 16])
}

/// The first patient, the last, and any.
fn places(region: &Region, random: &mut Random) -> [usize; 3] {
    [0, region.patients.len() - 1, random.below(region.patients.len())]
}

/// All counts of patients and of tables that two files can have, counts of entries on both sides of 4,096, and each limit passed
/// where the others are reached.
pub fn sizes(tested: Tested<JoinCall>, seed: u64, count: usize) -> Result<Tally, Difference> {
    let mut tally = Tally::of(&format!("{}, sizes", tested.name));
    let mut random = Random::of(seed, "join, sizes");
    let mut try_pair = |first: Region, second: Region, number: u64| {
        let files = Files::of_pair(&(first, second));
        compare(&mut tally, tested, &files, files.exact(&mut random), Some((number, NEITHER))).map(drop)
    };
    let due = |sum: u64, limit: u64| if sum > limit { 17 } else { 0 };
    for (first, second) in all_pairs(1, 32) {
        let patients = |clinic: u64, count: u64| in_clinic(clinic, of_counts(count as usize, 0, 1));
        try_pair(patients(0, first), patients(1, second), due(first + second, 32))?;
    }
    for (first, second) in all_pairs(0, 64) {
        let tables = |clinic: u64, count: u64| in_clinic(clinic, of_counts(1, count as usize, 1));
        try_pair(tables(0, first), tables(1, second), due(first + second, 64))?;
    }
    for (first, second) in pairs_of_entries(count, &mut Random::of(seed, "join, entries")) {
        let entries = |clinic: u64, count: u64| in_clinic(clinic, joins::of_entries(count));
        try_pair(entries(0, first), entries(1, second), due(first + second, 4_096))?;
    }
    for ((first, second), number) in joins::at_the_limits() {
        try_pair(first, second, number)?;
    }
    tally.with_all(&[0, 17])
}

fn all_pairs(least: u64, most: u64) -> impl Iterator<Item = (u64, u64)> {
    (least..=most).flat_map(move |first| (least..=most).map(move |second| (first, second)))
}

/// Counts of entries whose sum is 4,094 to 4,098, and some that are far from it.
fn pairs_of_entries(count: usize, random: &mut Random) -> Vec<(u64, u64)> {
    let mut firsts = vec![0, 1, 2, 3, 15, 16, 17, 255, 256, 257, 2_047, 2_048, 2_049, 4_093, 4_094];
    firsts.extend((0..count / 16).map(|_| random.between(0, 4_094)));
    let beside = |first: u64| (4_094..=4_098).map(move |sum| (first, sum - first));
    let mut pairs: Vec<(u64, u64)> =
        firsts.into_iter().flat_map(beside).filter(|(_, second)| *second <= 4_096).collect();
    pairs.extend([(4_095, 0), (4_095, 1), (4_095, 2), (4_096, 0), (4_096, 1), (4_096, 4_096), (1, 1), (0, 0)]);
    pairs
}
