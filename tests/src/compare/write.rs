//! Write in every byte of every area, with regions that a file could say and with others; and written files read back.

use crate::areas::{length_near, Area, Areas, Lengths, Outputs};
use crate::boundary;
use crate::compare::report::{outputs_text, readable, Difference, Tally};
use crate::compare::{list, paper, Tested, WriteCall, LIBRARY};
use crate::files;
use crate::generate::{faults, full_size, large, lent_faults, small, spelling};
use crate::lent::{numbers_in, Lent};
use crate::limits::MOST_WRITTEN_BYTES;
use crate::numbers;
use crate::outcomes::{self, Outcomes};
use crate::random::Random;
use crate::reader;
use crate::region::Region;

/// How long an output area is where the region makes no file.
const SOME: usize = 400;

/// The questions that the call asks, in their order.
const ASKED: [u64; 9] = [2, 5, 6, 7, 8, 9, 10, 12, 15];

pub fn run(tested: Tested<WriteCall>, seed: u64, count: usize) -> Result<Vec<Tally>, Difference> {
    Ok(vec![
        good_regions(tested, seed, count)?,
        single_faults(tested, seed, count / 4)?,
        double_faults(tested, seed, count)?,
        not_whole(tested, seed, count)?,
        large_numbers(tested, seed, count * 2)?,
        limits(tested, seed, count)?,
        fixed_beds(tested, seed, count / 4)?,
        counts(tested, seed, count)?,
        all_lengths(tested, seed, count)?,
        round_trips(tested, seed, count / 8)?,
    ])
}

/// One call, compared in its number and in every byte of every area, those that are only read too.
/// Where the number is known beforehand, it must be that one.
pub fn compare(
    tally: &mut Tally,
    tested: Tested<WriteCall>,
    (lent, file): (&Lent, &Result<Vec<u8>, u64>),
    areas: Outputs,
    known: Option<u64>,
) -> Result<(), Difference> {
    let (mut expected, mut given, after) = (areas.clone(), areas, lent.clone());
    let expected_number = outcomes::write(file, &mut expected);
    let number = (tested.call)(&after, &mut given);
    let as_known = known.is_none_or(|known| number == known);
    if number == expected_number && given == expected && after == *lent && as_known {
        tally.count(number);
        return Ok(());
    }
    let mut answers = vec![
        ("lent".to_string(), lent_text(lent)),
        ("independent program".to_string(), format!("{expected_number}{}", outputs_text(&expected))),
        (tested.name.to_string(), format!("{number}{}", outputs_text(&given))),
    ];
    answers.extend(known.map(|known| ("known from how the region was made".to_string(), known.to_string())));
    if after != *lent {
        answers.push(("lent, after the call".to_string(), lent_text(&after)));
    }
    let file = file.as_deref().unwrap_or_default().to_vec();
    Err(Difference { kind: tally.kind().to_string(), file, answers })
}

fn lent_text(lent: &Lent) -> String {
    let text = |name: &str, area: &Area| {
        let length = area.contents().len();
        format!("\n  {name} {length} bytes, numbers {:?}", numbers_in(area))
    };
    let (patients, tables) = (text("patients", &lent.patients), text("tables  ", &lent.tables));
    format!("m {}{patients}{tables}{}", lent.m, text("entries ", &lent.entries))
}

/// One call with areas of some lengths.
fn compare_near(
    tally: &mut Tally,
    tested: Tested<WriteCall>,
    lent: &Lent,
    known: Option<u64>,
    random: &mut Random,
) -> Result<(), Difference> {
    let file = outcomes::file_of_lent(lent);
    let areas = near(&file, random);
    compare(tally, tested, (lent, &file), areas, known)
}

/// A region, any numbers in the places of members that are not there, and its file or refusal.
fn lent_with_file(region: &Region, random: &mut Random) -> (Lent, Result<Vec<u8>, u64>) {
    let lent = lent_faults::lent(region, random);
    let file = outcomes::file_of_lent(&lent);
    (lent, file)
}

/// Areas of lengths at or beside what the file needs, or any.
fn near(file: &Result<Vec<u8>, u64>, random: &mut Random) -> Outputs {
    let needed = file.as_ref().map_or(SOME, Vec::len);
    let output = length_near(needed, random);
    let result = if random.chance(80) { 8 } else { random.below(18) };
    Outputs::patterned(output, result, random.number())
}

/// Small regions of every kind, regions of every count, large ones and those of full size.
pub fn good_regions(tested: Tested<WriteCall>, seed: u64, count: usize) -> Result<Tally, Difference> {
    let mut tally = Tally::of(&format!("{}, good regions", tested.name));
    let mut random = Random::of(seed, "write, good regions");
    for case in 0..count {
        let region = match case % 200 {
            0 => full_size::region(&mut random),
            1 => full_size::longest_region(),
            2 | 3 => large::region(&mut random),
            _ => lent_faults::good_region(case, &mut random),
        };
        let (lent, file) = lent_with_file(&region, &mut random);
        let needed = file.as_ref().map_or(0, Vec::len);
        let exact = Outputs::patterned(needed, 8, random.number());
        compare(&mut tally, tested, (&lent, &file), exact, Some(0))?;
        compare(&mut tally, tested, (&lent, &file), near(&file, &mut random), None)?;
    }
    tally.with_all(&[0, 12, 15])
}

/// One fault each, equally many for every question from 5 to 10.
pub fn single_faults(tested: Tested<WriteCall>, seed: u64, count: usize) -> Result<Tally, Difference> {
    let mut tally = Tally::of(&format!("{}, one fault", tested.name));
    let mut random = Random::of(seed, "write, one fault");
    for _ in 0..count {
        for question in numbers::OF_REGIONS {
            let region = faults::region_with_faults(&[*question], &mut random);
            let lent = lent_faults::lent(&region, &mut random);
            compare_near(&mut tally, tested, &lent, Some(*question), &mut random)?;
        }
        compare_near(&mut tally, tested, &lent_faults::shifted_count(&mut random), Some(8), &mut random)?;
    }
    tally.with_all(numbers::OF_REGIONS)
}

/// Faults of two questions, those of the areas among them: the first "no" gives the number.
pub fn double_faults(tested: Tested<WriteCall>, seed: u64, count: usize) -> Result<Tally, Difference> {
    let mut tally = Tally::of(&format!("{}, two faults", tested.name));
    let mut random = Random::of(seed, "write, two faults");
    for _ in 0..count.div_ceil(20) {
        for (place, one) in ASKED.iter().enumerate() {
            for other in &ASKED[place + 1..] {
                compare_faults(&mut tally, tested, (*one, *other), &mut random)?;
            }
        }
    }
    tally.with_all(&ASKED[..ASKED.len() - 1])
}

fn compare_faults(
    tally: &mut Tally,
    tested: Tested<WriteCall>,
    (one, other): (u64, u64),
    random: &mut Random,
) -> Result<(), Difference> {
    let region = faults::region_with_faults(&[one, other], random);
    let lent = if one == 2 { lent_faults::not_whole(&region, random) } else { lent_faults::lent(&region, random) };
    let file = outcomes::file_of_lent(&lent);
    let needed = file.as_ref().map_or(SOME, Vec::len);
    let output = if other == 15 { random.below(needed) } else { needed };
    let result = if one == 12 || other == 12 { random.below(8) } else { 8 };
    let areas = Outputs::patterned(output, result, random.number());
    compare(tally, tested, (&lent, &file), areas, Some(one))
}

/// Areas that are not whole, and counts that do not add up, some of them only where a sum is cut to 32 or 64 bits.
pub fn not_whole(tested: Tested<WriteCall>, seed: u64, count: usize) -> Result<Tally, Difference> {
    let mut tally = Tally::of(&format!("{}, areas not whole", tested.name));
    let mut random = Random::of(seed, "write, areas not whole");
    for _ in 0..count {
        let lent = lent_faults::not_whole(&small::any_region(&mut random), &mut random);
        compare_near(&mut tally, tested, &lent, Some(2), &mut random)?;
    }
    tally.with_all(&[2])
}

/// One number of a sound region becomes another, near 2^32, 2^63 or 2^64, or a good one with a high bit more.
pub fn large_numbers(tested: Tested<WriteCall>, seed: u64, count: usize) -> Result<Tally, Difference> {
    let mut tally = Tally::of(&format!("{}, large numbers", tested.name));
    let mut random = Random::of(seed, "write, large numbers");
    for _ in 0..count {
        compare_near(&mut tally, tested, &lent_faults::one_large_number(&mut random), None, &mut random)?;
    }
    tally.with_all(&[0, 2, 5, 6, 7, 9])
}

/// One field of a sound region at its limits and beside them.
pub fn limits(tested: Tested<WriteCall>, seed: u64, count: usize) -> Result<Tally, Difference> {
    let mut tally = Tally::of(&format!("{}, limits", tested.name));
    let mut random = Random::of(seed, "write, limits");
    for _ in 0..count {
        compare_near(&mut tally, tested, &lent_faults::at_a_limit(&mut random), None, &mut random)?;
    }
    tally.with_all(&[0, 5, 6, 7, 8, 9])
}

/// A fixed bed of a good region at its limits, near 2^32 and 2^63, and one below what stands for none.
pub fn fixed_beds(tested: Tested<WriteCall>, seed: u64, count: usize) -> Result<Tally, Difference> {
    let mut tally = Tally::of(&format!("{}, fixed beds", tested.name));
    let mut random = Random::of(seed, "write, fixed beds");
    for _ in 0..count {
        for (lent, number) in lent_faults::fixed_at_limits(&mut random) {
            let file = outcomes::file_of_lent(&lent);
            let needed = file.as_ref().map_or(SOME, Vec::len);
            compare(&mut tally, tested, (&lent, &file), Outputs::patterned(needed, 8, random.number()), Some(number))?;
        }
    }
    tally.with_all(&[0, 6])
}

/// 0 to 40 patients with 0 to 70 tables, many more of both, and stores at the limit.
pub fn counts(tested: Tested<WriteCall>, seed: u64, _: usize) -> Result<Tally, Difference> {
    let mut tally = Tally::of(&format!("{}, counts", tested.name));
    let mut random = Random::of(seed, "write, counts");
    for patients in 0..=40 {
        for tables in 0..=70 {
            let region = lent_faults::of_counts(patients, tables, random.between(1, 64));
            let (lent, file) = lent_with_file(&region, &mut random);
            let known = if (1..=32).contains(&patients) && tables <= 64 { 0 } else { 5 };
            let needed = file.as_ref().map_or(SOME, Vec::len);
            compare(&mut tally, tested, (&lent, &file), Outputs::patterned(needed, 8, random.number()), Some(known))?;
        }
    }
    for (region, number) in lent_faults::of_sizes() {
        let (lent, file) = lent_with_file(&region, &mut random);
        compare(&mut tally, tested, (&lent, &file), Outputs::patterned(70_000, 8, random.number()), Some(number))?;
    }
    tally.with_all(&[0, 5, 8])
}

/// A few regions with output areas of every length up to past the need, result areas of 0 to 17 bytes, and mixtures.
pub fn all_lengths(tested: Tested<WriteCall>, seed: u64, _: usize) -> Result<Tally, Difference> {
    let mut tally = Tally::of(&format!("{}, all lengths", tested.name));
    let mut random = Random::of(seed, "write, all lengths");
    for kind in small::KINDS {
        let (lent, file) = lent_with_file(&small::region(kind, &mut random), &mut random);
        let needed = file.as_ref().map_or(SOME, Vec::len);
        let mut lengths: Vec<(usize, usize)> = (0..needed.min(300)).map(|output| (output, 8)).collect();
        lengths.extend((needed.saturating_sub(300)..needed + 18).map(|output| (output, 8)));
        for result in 0..18 {
            lengths.extend([0, needed - 1, needed, needed + 1, needed + 17].map(|output| (output, result)));
        }
        for (output, result) in lengths {
            let areas = Outputs::patterned(output, result, random.number());
            compare(&mut tally, tested, (&lent, &file), areas, None)?;
        }
    }
    tally.with_all(&[0, 12, 15])
}

/// What is read of a written file is what was lent, check accepts it, and its list is the region's. The other way round,
/// what is read of a good file is written as that file.
pub fn round_trips(tested: Tested<WriteCall>, seed: u64, count: usize) -> Result<Tally, Difference> {
    let mut tally = Tally::of(&format!("{}, there and back", tested.name));
    let mut random = Random::of(seed, "write, there and back");
    let mut longest = 0;
    for case in 0..count {
        let region = if case == 0 { full_size::longest_region() } else { lent_faults::good_region(case, &mut random) };
        let file = written(&tally, tested, &lent_faults::lent(&region, &mut random), &mut random)?;
        longest = longest.max(file.len());
        let fits = file.len() <= MOST_WRITTEN_BYTES && boundary::check(&file) == 0;
        if !fits || reader::read(&file).as_ref() != Ok(&region) {
            return Err(lost(&tally, &file, format!("{region:?}")));
        }
        tally.count(0);
        if case % 4 == 1 && region.plan_count() <= small::MOST_PLANS {
            let areas = Areas::patterned(Lengths::asked(region.m, region.patients.len()), random.number());
            let spelled = Outcomes::of(&spelling::file_of(&region));
            list::compare(&mut tally, LIBRARY.list, (&file, &spelled), areas)?;
        }
    }
    let held = files::all().into_iter().map(|made| made.bytes);
    for good in held.chain([paper::PRINTED.as_bytes().to_vec()]) {
        compare_back(&mut tally, tested, &good, &mut random)?;
    }
    tally.remark(format!("(the longest file has {longest} bytes)"));
    tally.with_all(&[0])
}

/// Writes the region that is read of a file: the file's own bytes. A refused one has none.
pub fn compare_back(
    tally: &mut Tally,
    tested: Tested<WriteCall>,
    good: &[u8],
    random: &mut Random,
) -> Result<(), Difference> {
    let Ok(region) = reader::read(good) else { return Ok(()) };
    let file = written(tally, tested, &lent_faults::lent(&region, random), random)?;
    if file != good {
        return Err(lost(tally, &file, readable(good)));
    }
    tally.count(0);
    Ok(())
}

/// What a call writes into an area that is long enough for every region; the call must give 0.
fn written(tally: &Tally, tested: Tested<WriteCall>, lent: &Lent, random: &mut Random) -> Result<Vec<u8>, Difference> {
    let mut areas = Outputs::patterned(MOST_WRITTEN_BYTES, 8, random.number());
    let number = (tested.call)(lent, &mut areas);
    if number == 0 {
        return Ok(areas.counted().to_vec());
    }
    let answers =
        vec![("lent, a good region".to_string(), lent_text(lent)), (tested.name.to_string(), number.to_string())];
    Err(Difference { kind: tally.kind().to_string(), file: Vec::new(), answers })
}

/// A file that does not say what was lent.
fn lost(tally: &Tally, file: &[u8], due: String) -> Difference {
    let answers = vec![
        ("lent".to_string(), due),
        ("check of what was written".to_string(), boundary::check(file).to_string()),
        ("read of it".to_string(), format!("{:?}", reader::read(file))),
    ];
    Difference { kind: tally.kind().to_string(), file: file.to_vec(), answers }
}
