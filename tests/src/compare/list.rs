//! List in every byte of every area, with areas of every length around the limits.

use crate::areas::{Areas, Lengths};
use crate::compare::report::{areas_text, Difference, Tally};
use crate::compare::{ListCall, Tested};
use crate::generate::{faulty, small, spelling};
use crate::numbers;
use crate::outcomes::Outcomes;
use crate::random::Random;

pub fn run(tested: Tested<ListCall>, seed: u64, count: usize) -> Result<Vec<Tally>, Difference> {
    let mut tallies = Vec::new();
    for kind in small::KINDS {
        tallies.push(regions(tested, kind, seed, count / 4)?);
    }
    tallies.push(all_lengths(tested, seed, count)?);
    tallies.push(faulty_files(tested, seed, count)?);
    Ok(tallies)
}

/// One call, compared in its number and in every byte of every area.
pub fn compare(
    tally: &mut Tally,
    tested: Tested<ListCall>,
    (file, outcomes): (&[u8], &Outcomes),
    areas: Areas,
) -> Result<(), Difference> {
    let (mut expected, mut given) = (areas.clone(), areas);
    let expected_number = outcomes.list(&mut expected);
    let number = (tested.call)(file, &mut given);
    if number == expected_number && given == expected {
        tally.count(number);
        return Ok(());
    }
    let answers = vec![
        ("independent program".to_string(), format!("{expected_number}{}", areas_text(&expected))),
        (tested.name.to_string(), format!("{number}{}", areas_text(&given))),
    ];
    Err(Difference { kind: tally.kind().to_string(), file: file.to_vec(), answers })
}

/// Small regions of one kind, with areas that are exactly long enough and with others.
pub fn regions(tested: Tested<ListCall>, kind: small::Kind, seed: u64, count: usize) -> Result<Tally, Difference> {
    let mut tally = Tally::of(&format!("{}, {kind:?}", tested.name));
    let mut random = Random::of(seed, &format!("list, {kind:?}"));
    for _ in 0..count {
        let region = small::region(kind, &mut random);
        let file = spelling::file_of(&region);
        let outcomes = Outcomes::of(&file);
        let asked = Lengths::asked(region.m, region.patients.len());
        compare(&mut tally, tested, (&file, &outcomes), Areas::patterned(asked, random.number()))?;
        for _ in 0..2 {
            let lengths = near(asked, &mut random);
            compare(&mut tally, tested, (&file, &outcomes), Areas::patterned(lengths, random.number()))?;
        }
    }
    tally.with_all(match kind {
        small::Kind::NoneAllowed => &[12, 13],
        small::Kind::FixedBeds => &[0, 12, 13],
        _ => &[0, 12],
    })
}

/// Lengths at or beside what is asked for, or any.
pub fn near(asked: Lengths, random: &mut Random) -> Lengths {
    let mut length = |asked: usize| match random.below(20) {
        0 => asked - 1,
        1 => random.below(asked),
        2..=6 => asked + 1,
        7..=9 => asked + random.below(40),
        _ => asked,
    };
    Lengths { beds: length(asked.beds), costs: length(asked.costs), result: length(asked.result) }
}

/// A few regions with every length of each area from 0 to past its limit, and with every mixture
/// of lengths beside the limits.
pub fn all_lengths(tested: Tested<ListCall>, seed: u64, _: usize) -> Result<Tally, Difference> {
    let mut tally = Tally::of(&format!("{}, all lengths", tested.name));
    let mut random = Random::of(seed, "list, all lengths");
    for kind in small::KINDS {
        let region = small::region(kind, &mut random);
        let file = spelling::file_of(&region);
        let outcomes = Outcomes::of(&file);
        for lengths in lengths_to_try(Lengths::asked(region.m, region.patients.len())) {
            compare(&mut tally, tested, (&file, &outcomes), Areas::patterned(lengths, random.number()))?;
        }
    }
    tally.with_all(&[0, 12, 13])
}

/// Each area in turn from nothing to past its limit, then mixtures.
pub fn lengths_to_try(asked: Lengths) -> Vec<Lengths> {
    let mut all = Vec::new();
    all.extend((0..asked.beds + 18).map(|beds| Lengths { beds, ..asked }));
    all.extend((0..asked.costs + 18).map(|costs| Lengths { costs, ..asked }));
    all.extend((0..asked.result + 18).map(|result| Lengths { result, ..asked }));
    for beds in [0, asked.beds - 1, asked.beds, asked.beds + 1] {
        for costs in [0, asked.costs - 8, asked.costs - 1, asked.costs, asked.costs + 1] {
            for result in [0, 7, 8, 9, 16] {
                all.push(Lengths { beds, costs, result });
            }
        }
    }
    all
}

/// Files with a fault or some damage, with areas of any length.
pub fn faulty_files(tested: Tested<ListCall>, seed: u64, count: usize) -> Result<Tally, Difference> {
    let mut tally = Tally::of(&format!("{}, faulty files", tested.name));
    let mut random = Random::of(seed, "list, faulty files");
    for case in 0..count {
        let file = faulty::file(case, &mut random);
        let outcomes = Outcomes::of(&file);
        let lengths = near(Lengths { beds: 2_048, costs: 512, result: 8 }, &mut random);
        compare(&mut tally, tested, (&file, &outcomes), Areas::patterned(lengths, random.number()))?;
    }
    tally.with_all(numbers::OF_FILES)
}
