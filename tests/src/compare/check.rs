//! Check on good, faulty and damaged files: its number is the independent reader's.

use crate::compare::report::{Difference, Tally};
use crate::compare::{CheckCall, Tested};
use crate::generate::{clinics, damage, faults, full_size, layout_faults, parents, small, spelling};
use crate::limits::HIGHEST_NUMBER;
use crate::outcomes;
use crate::random::Random;

/// Every kind of test of check.
pub fn run(tested: Tested<CheckCall>, seed: u64, count: usize) -> Result<Vec<Tally>, Difference> {
    Ok(vec![
        good_files(tested, seed, count)?,
        large_files(tested, seed, count)?,
        single_faults(tested, seed, count)?,
        double_faults(tested, seed, count)?,
        fixed_beds(tested, seed, count / 4)?,
        damaged_files(tested, seed, count)?,
        random_files(tested, seed, count)?,
    ])
}

/// Compares one file. Where the number is known beforehand, it must be that one.
pub fn compare(
    tally: &mut Tally,
    tested: Tested<CheckCall>,
    file: &[u8],
    known: Option<u64>,
) -> Result<(), Difference> {
    let independent = outcomes::check(file);
    let mut answers = vec![("independent reader", independent), (tested.name, (tested.call)(file))];
    answers.extend(known.map(|number| ("known from how the file was made", number)));
    if answers.iter().all(|(_, number)| *number == independent) {
        tally.count(independent);
        return Ok(());
    }
    let answers = answers.into_iter().map(|(who, number)| (who.to_string(), number.to_string())).collect();
    Err(Difference { kind: tally.kind().to_string(), file: file.to_vec(), answers })
}

/// Small regions of every kind.
pub fn good_files(tested: Tested<CheckCall>, seed: u64, count: usize) -> Result<Tally, Difference> {
    let mut tally = Tally::of(&format!("{}, good files", tested.name));
    let mut random = Random::of(seed, "check, good files");
    for case in 0..count {
        let region = small::region(small::KINDS[case % small::KINDS.len()], &mut random);
        compare(&mut tally, tested, &spelling::file_of(&region), Some(0))?;
    }
    tally.with_all(&[0])
}

/// Regions as the benchmark has them, and files at the limits of size.
pub fn large_files(tested: Tested<CheckCall>, seed: u64, count: usize) -> Result<Tally, Difference> {
    let mut tally = Tally::of(&format!("{}, large files", tested.name));
    let mut random = Random::of(seed, "check, large files");
    for _ in 0..count / 20 {
        let patients = random.pick(&[1, 2, 4, 8]);
        let most_clinics = 32 / patients;
        let parameters = clinics::Parameters {
            clinics: random.between(1, most_clinics.min(16)),
            patients,
            beds: random.between(1, 16),
            density: random.between(0, 100) as f64 / 100.0,
            m: random.between(1, 64),
        };
        let region = clinics::region(parameters, &mut random);
        compare(&mut tally, tested, &spelling::file_of(&region), Some(0))?;
        compare(&mut tally, tested, &spelling::file_of(&parents::chained(&region)), Some(0))?;
        compare(&mut tally, tested, &full_size::good_file(&mut random), Some(0))?;
        compare(&mut tally, tested, &full_size::laid_out_file(65_535, &mut random), Some(8))?;
        compare(&mut tally, tested, &faults::too_long(&mut random), Some(1))?;
    }
    tally.with_all(&[0, 1, 8])
}

/// One fault each, equally many for every question from 2 to 10.
pub fn single_faults(tested: Tested<CheckCall>, seed: u64, count: usize) -> Result<Tally, Difference> {
    let mut tally = Tally::of(&format!("{}, one fault", tested.name));
    let mut random = Random::of(seed, "check, one fault");
    for _ in 0..count {
        compare(&mut tally, tested, &layout_faults::file(&mut random), Some(2))?;
        for question in 3..=10 {
            compare(&mut tally, tested, &faults::file_with_fault(question, &mut random), Some(question))?;
        }
    }
    tally.with_all(&[2, 3, 4, 5, 6, 7, 8, 9, 10])
}

/// Faults of two questions: the first "no" gives the number.
pub fn double_faults(tested: Tested<CheckCall>, seed: u64, count: usize) -> Result<Tally, Difference> {
    let mut tally = Tally::of(&format!("{}, two faults", tested.name));
    let mut random = Random::of(seed, "check, two faults");
    for _ in 0..count.div_ceil(8) {
        for one in 3..=10 {
            for other in one + 1..=10 {
                compare(&mut tally, tested, &faults::file_with_faults(one, other, &mut random), Some(one))?;
            }
        }
    }
    tally.with_all(&[3, 4, 5, 6, 7, 8, 9])
}

/// Each patient of a region in turn with a fixed bed at the bed count and beside it.
pub fn fixed_beds(tested: Tested<CheckCall>, seed: u64, count: usize) -> Result<Tally, Difference> {
    let mut tally = Tally::of(&format!("{}, fixed beds", tested.name));
    let mut random = Random::of(seed, "check, fixed beds");
    for _ in 0..count {
        let good = small::any_region(&mut random);
        for (place, patient) in good.patients.iter().enumerate() {
            let beds = patient.beds;
            let numbered = [(0, 0), (beds - 1, 0), (beds, 6), (beds + 1, 6), (beds + 15, 6), (HIGHEST_NUMBER, 6)];
            for (bed, number) in numbered {
                let mut region = good.clone();
                region.patients[place].fixed = Some(bed);
                compare(&mut tally, tested, &spelling::file_of(&region), Some(number))?;
            }
        }
    }
    tally.with_all(&[0, 6])
}

pub fn damaged_files(tested: Tested<CheckCall>, seed: u64, count: usize) -> Result<Tally, Difference> {
    let mut tally = Tally::of(&format!("{}, damaged files", tested.name));
    let mut random = Random::of(seed, "check, damaged files");
    for _ in 0..count * 10 {
        let good = spelling::file_of(&small::any_region(&mut random));
        compare(&mut tally, tested, &damage::damaged(&good, &mut random), None)?;
    }
    tally.with_all(&[0, 2, 3, 4, 6, 7])
}

pub fn random_files(tested: Tested<CheckCall>, seed: u64, count: usize) -> Result<Tally, Difference> {
    let mut tally = Tally::of(&format!("{}, random bytes", tested.name));
    let mut random = Random::of(seed, "check, random bytes");
    for _ in 0..count {
        compare(&mut tally, tested, &damage::random_bytes(&mut random), None)?;
    }
    tally.with_all(&[2])
}
