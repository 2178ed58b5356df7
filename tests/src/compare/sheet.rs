//! Sheet for every clinic of each region, and for clinics that no region has.

use crate::areas::{Areas, Lengths};
use crate::compare::list::{lengths_to_try, near};
use crate::compare::report::{areas_text, Difference, Tally};
use crate::compare::{SheetCall, Tested};
use crate::generate::pairs::{self, Sharing};
use crate::generate::{faulty, small, spelling};
use crate::numbers;
use crate::outcomes::Outcomes;
use crate::random::Random;
use crate::region::Region;

pub fn run(tested: Tested<SheetCall>, seed: u64, count: usize) -> Result<Vec<Tally>, Difference> {
    Ok(vec![
        regions(tested, seed, count)?,
        joined_regions(tested, seed, count / 2)?,
        all_lengths(tested, seed, count)?,
        faulty_files(tested, seed, count)?,
    ])
}

/// One call, compared in its number and in every byte of every area.
pub fn compare(
    tally: &mut Tally,
    tested: Tested<SheetCall>,
    (file, outcomes): (&[u8], &Outcomes),
    clinic: u64,
    areas: Areas,
) -> Result<(), Difference> {
    let (mut expected, mut given) = (areas.clone(), areas);
    let expected_number = outcomes.sheet(clinic, &mut expected);
    let number = (tested.call)(file, clinic, &mut given);
    if number == expected_number && given == expected {
        tally.count(number);
        return Ok(());
    }
    let answers = vec![
        ("clinic".to_string(), clinic.to_string()),
        ("independent program".to_string(), format!("{expected_number}{}", areas_text(&expected))),
        (tested.name.to_string(), format!("{number}{}", areas_text(&given))),
    ];
    Err(Difference { kind: tally.kind().to_string(), file: file.to_vec(), answers })
}

/// Every clinic of a region, the highest clinic, and numbers that a cut to fewer bits would mistake.
fn clinics_to_try(region: &Region) -> Vec<u64> {
    let mut clinics = region.clinics();
    let first = clinics[0];
    clinics.extend([15, 16, 255, 256, 1 << 32, u64::MAX]);
    clinics.extend([4, 5, 8, 16, 32, 63].map(|bits| (1 << bits) + first));
    clinics
}

fn every_clinic(
    tally: &mut Tally,
    tested: Tested<SheetCall>,
    region: &Region,
    random: &mut Random,
) -> Result<(), Difference> {
    let file = spelling::file_of(region);
    let outcomes = Outcomes::of(&file);
    let asked = Lengths::asked(region.m, region.patients.len());
    for clinic in clinics_to_try(region) {
        let lengths = if random.chance(60) { asked } else { near(asked, random) };
        let areas = Areas::patterned(lengths, random.number());
        compare(tally, tested, (&file, &outcomes), clinic, areas)?;
    }
    Ok(())
}

/// Small regions of every kind, most of them with tables that join clinics.
pub fn regions(tested: Tested<SheetCall>, seed: u64, count: usize) -> Result<Tally, Difference> {
    let mut tally = Tally::of(&format!("{}, regions", tested.name));
    let mut random = Random::of(seed, "sheet, regions");
    for case in 0..count {
        let region = small::region(small::KINDS[case % small::KINDS.len()], &mut random);
        every_clinic(&mut tally, tested, &region, &mut random)?;
    }
    tally.with_all(&[0, 11, 12, 13])
}

/// Regions with a clinic that no table joins to others, and with one that a table does.
pub fn joined_regions(tested: Tested<SheetCall>, seed: u64, count: usize) -> Result<Tally, Difference> {
    let mut tally = Tally::of(&format!("{}, clinics apart or joined", tested.name));
    let mut random = Random::of(seed, "sheet, clinics apart or joined");
    for case in 0..count {
        let sharing = if case % 2 == 1 { Sharing::Joined } else { Sharing::All };
        let pair = pairs::pair(pairs::SMALL, sharing, &mut random);
        every_clinic(&mut tally, tested, &pair.one.0, &mut random)?;
    }
    tally.with_all(&[0, 11, 12, 13])
}

/// Every length of each area from 0 to past its limit, for a few regions and a clinic that they
/// have, and for one that they do not have.
pub fn all_lengths(tested: Tested<SheetCall>, seed: u64, _: usize) -> Result<Tally, Difference> {
    let mut tally = Tally::of(&format!("{}, all lengths", tested.name));
    let mut random = Random::of(seed, "sheet, all lengths");
    for kind in small::KINDS {
        let region = small::region(kind, &mut random);
        let file = spelling::file_of(&region);
        let outcomes = Outcomes::of(&file);
        let present = region.patients[random.below(region.patients.len())].clinic;
        let asked = Lengths::asked(region.m, region.patients.len());
        for lengths in lengths_to_try(asked) {
            for clinic in [present, 256 + present] {
                let areas = Areas::patterned(lengths, random.number());
                compare(&mut tally, tested, (&file, &outcomes), clinic, areas)?;
            }
        }
    }
    tally.with_all(&[0, 11, 12, 13])
}

pub fn faulty_files(tested: Tested<SheetCall>, seed: u64, count: usize) -> Result<Tally, Difference> {
    let mut tally = Tally::of(&format!("{}, faulty files", tested.name));
    let mut random = Random::of(seed, "sheet, faulty files");
    for case in 0..count {
        let file = faulty::file(case, &mut random);
        let outcomes = Outcomes::of(&file);
        let lengths = near(Lengths { beds: 2_048, costs: 512, result: 8 }, &mut random);
        let clinic = random.between(0, 16);
        compare(&mut tally, tested, (&file, &outcomes), clinic, Areas::patterned(lengths, random.number()))?;
    }
    tally.with_all(numbers::OF_FILES)
}
