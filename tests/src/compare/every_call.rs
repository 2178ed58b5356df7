//! One file through the six calls of a file, through parents, and through join before and behind another. Cut, changed and damaged
//! files: every call refuses what check refuses, but that parents asks nothing of parents.

use crate::areas::{Area, Areas, Lengths};
use crate::compare::report::{Difference, Tally};
use crate::compare::{check, join, line, list, paper, parents, price, read, sheet, Calls};
use crate::generate::{clinics, damage, small, spelling, typed};
use crate::outcomes::Outcomes;
use crate::random::Random;
use crate::{made_parents, reader};

/// How many bytes are lent with a file that has no region.
const SOME: Lengths = Lengths { beds: 40, costs: 64, result: 8 };

pub fn run(calls: Calls, seed: u64, count: usize) -> Result<Vec<Tally>, Difference> {
    Ok(vec![
        one_byte_changes(calls, seed, count)?,
        cuts(calls, seed, count)?,
        old_form(calls, seed, count / 4)?,
        damaged_files(calls, seed, count)?,
        random_files(calls, seed, count)?,
    ])
}

/// Check, list, sheet, price, line, read, join and parents of one file, in every byte that they leave.
pub fn compare(tally: &mut Tally, calls: Calls, file: &[u8], random: &mut Random) -> Result<Outcomes, Difference> {
    let outcomes = Outcomes::of(file);
    let region = outcomes.region();
    let asked = region.map_or(SOME, |region| Lengths::asked(region.m, region.patients.len()));
    let clinic = region.map_or(0, |region| region.patients[random.below(region.patients.len())].clinic);
    let plan = vec![0; region.map_or(2, |region| region.patients.len())];
    check::compare(tally, calls.check, file, None)?;
    let areas = Areas::patterned(list::near(asked, random), random.number());
    list::compare(tally, calls.list, (file, &outcomes), areas)?;
    let areas = Areas::patterned(list::near(asked, random), random.number());
    sheet::compare(tally, calls.sheet, (file, &outcomes), clinic, areas)?;
    let result = Area::patterned(random.pick(&[0, 15, 16, 16, 16, 17]), random.number());
    price::compare(tally, calls.price, (file, &outcomes), &plan, result)?;
    let result = Area::patterned(random.pick(&[0, 15, 16, 16, 16, 17]), random.number());
    line::compare(tally, calls.line, (file, &outcomes.lines(file)), &typed::any(region, random), result)?;
    let given = read::Given { file: file.to_vec(), reading: outcomes.reading() };
    read::compare(tally, calls.read, &given, given.near(random), None)?;
    join::compare_with_partner(tally, calls.join, (file, region), random)?;
    let given = parents::Given::of(file.to_vec());
    parents::compare(tally, calls.parents, &given, given.near(random), None)?;
    Ok(outcomes)
}

/// A file that every call must refuse, parents by one of the questions that come before those of patients.
fn compare_refused(tally: &mut Tally, calls: Calls, file: &[u8], random: &mut Random) -> Result<(), Difference> {
    let accepted = compare(tally, calls, file, random)?.region().is_some();
    if !accepted && made_parents::file(file).is_err_and(|number| number <= 4) {
        return Ok(());
    }
    let answers = vec![("all".to_string(), "accepted, though a good file was cut or changed".to_string())];
    Err(Difference { kind: tally.kind().to_string(), file: file.to_vec(), answers })
}

/// All 255 other values at each place of good files: each is refused.
pub fn one_byte_changes(calls: Calls, seed: u64, _: usize) -> Result<Tally, Difference> {
    let mut tally = Tally::of(&format!("{}, all one-byte changes", calls.name));
    let mut random = Random::of(seed, "all one-byte changes");
    let interleaved = spelling::file_of(&small::region(small::Kind::Interleaved, &mut random));
    for good in [paper::PRINTED.as_bytes().to_vec(), interleaved] {
        check::compare(&mut tally, calls.check, &good, Some(0))?;
        for place in 0..good.len() {
            for change in 1..=255 {
                let mut file = good.clone();
                file[place] ^= change;
                compare_refused(&mut tally, calls, &file, &mut random)?;
            }
        }
    }
    tally.with_all(&[0, 2, 3, 4])
}

/// Every cut, the empty one too, of good files: each is refused with 2.
pub fn cuts(calls: Calls, seed: u64, _: usize) -> Result<Tally, Difference> {
    let mut tally = Tally::of(&format!("{}, all cuts", calls.name));
    let mut random = Random::of(seed, "all cuts");
    let mut files: Vec<Vec<u8>> =
        small::KINDS.iter().map(|kind| spelling::file_of(&small::region(*kind, &mut random))).collect();
    files.push(paper::PRINTED.as_bytes().to_vec());
    let parameters = clinics::Parameters { clinics: 4, patients: 4, beds: 4, density: 0.5, m: 10 };
    files.push(spelling::file_of(&clinics::region(parameters, &mut random)));
    for good in files {
        check::compare(&mut tally, calls.check, &good, Some(0))?;
        for length in 0..good.len() {
            check::compare(&mut tally, calls.check, &good[..length], Some(2))?;
            compare_refused(&mut tally, calls, &good[..length], &mut random)?;
        }
    }
    tally.with_all(&[0, 2])
}

/// Files of the form that patients had before their fixed beds, with true sums: each is refused with 2.
pub fn old_form(calls: Calls, seed: u64, count: usize) -> Result<Tally, Difference> {
    let mut tally = Tally::of(&format!("{}, the old form", calls.name));
    let mut random = Random::of(seed, "the old form");
    for _ in 0..count {
        let region = small::any_region(&mut random);
        let old = spelling::in_old_form(&region);
        check::compare(&mut tally, calls.check, &old, Some(2))?;
        compare_refused(&mut tally, calls, &old, &mut random)?;
    }
    tally.with_all(&[2])
}

/// Damaged files, refused or not; accepted ones have few enough plans to walk them.
pub fn damaged_files(calls: Calls, seed: u64, count: usize) -> Result<Tally, Difference> {
    let mut tally = Tally::of(&format!("{}, damaged files", calls.name));
    let mut random = Random::of(seed, "every call, damaged files");
    for _ in 0..count {
        let file = damage::damaged(&spelling::file_of(&small::any_region(&mut random)), &mut random);
        let plans = reader::read(&file).map_or(0, |region| region.plan_count());
        if plans <= small::MOST_PLANS {
            compare(&mut tally, calls, &file, &mut random)?;
        }
    }
    tally.with_all(&[0, 2, 3])
}

/// Random bytes, most of them such as stand in files.
pub fn random_files(calls: Calls, seed: u64, count: usize) -> Result<Tally, Difference> {
    let mut tally = Tally::of(&format!("{}, random bytes", calls.name));
    let mut random = Random::of(seed, "every call, random bytes");
    for _ in 0..count {
        compare(&mut tally, calls, &damage::random_bytes(&mut random), &mut random)?;
    }
    tally.with_all(&[2])
}
