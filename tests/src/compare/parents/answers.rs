//! What list, sheet and price answer before and after the parents are made: parents change no answer of a file that check accepts,
//! and where it was refused for its parents alone the answers are those of a walk over all plans, which knows no parents.

use crate::areas::{Area, Areas, Lengths};
use crate::compare::parents::{difference, written};
use crate::compare::report::{area_text, areas_text, Difference, Tally};
use crate::compare::{list, ParentsCall, Tested, LIBRARY};
use crate::generate::parents::{fill, Filled};
use crate::generate::{large, small, spelling};
use crate::plans::{self, Row};
use crate::random::Random;
use crate::region::Region;
use crate::{outcomes, reader};

/// Parents that check accepts, and parents that it mostly does not.
const ACCEPTED: [Filled; 3] = [Filled::WithMoreAncestors, Filled::Chained, Filled::Rightly];
const REFUSED: [Filled; 6] =
    [Filled::NotAtAll, Filled::Earlier, Filled::Themselves, Filled::Later, Filled::Highest, Filled::Anyhow];

/// Small regions that check accepts: the list, every sheet and prices before and after, in every byte of every area.
pub fn accepted_files(tested: Tested<ParentsCall>, seed: u64, count: usize) -> Result<Tally, Difference> {
    let mut tally = Tally::of(&format!("{}, same answers", tested.name));
    let mut random = Random::of(seed, "parents, same answers");
    let mut other_parents = 0;
    for case in 0..count {
        let mut region = small::region(small::KINDS[case % small::KINDS.len()], &mut random);
        if random.chance(80) {
            fill(&mut region, random.pick(&ACCEPTED), &mut random);
        }
        let files = before_and_after(&tally, tested, &region, &mut random)?;
        other_parents += u64::from(files[0] != files[1]);
        compare_lists(&mut tally, &files, &region, &mut random)?;
        compare_sheets(&mut tally, &files, &region, &mut random)?;
        compare_prices(&mut tally, &files, &region, &mut random)?;
    }
    tally.with_all(&[0, 11, 12, 13, 14])?.with_seen(&[("files with other parents before", other_parents)])
}

/// Regions with too many plans to walk: the list and every sheet before and after.
pub fn large_files(tested: Tested<ParentsCall>, seed: u64, count: usize) -> Result<Tally, Difference> {
    let mut tally = Tally::of(&format!("{}, same answers, large", tested.name));
    let mut random = Random::of(seed, "parents, same answers, large");
    let mut other_parents = 0;
    for _ in 0..count {
        let region = large::region(&mut random);
        let files = before_and_after(&tally, tested, &region, &mut random)?;
        other_parents += u64::from(files[0] != files[1]);
        compare_lists(&mut tally, &files, &region, &mut random)?;
        compare_sheets(&mut tally, &files, &region, &mut random)?;
    }
    tally.with_all(&[0, 11])?.with_seen(&[("files with other parents before", other_parents)])
}

/// The file, and what the call writes.
fn before_and_after(
    tally: &Tally,
    tested: Tested<ParentsCall>,
    region: &Region,
    random: &mut Random,
) -> Result<[Vec<u8>; 2], Difference> {
    let file = spelling::file_of(region);
    let made = written(tally, tested, &file, random)?;
    Ok([file, made])
}

/// One call with both files, and areas of the same contents.
fn compare_both<Lent: Clone + PartialEq>(
    tally: &mut Tally,
    files: &[Vec<u8>; 2],
    (what, lent): (&str, Lent),
    call: impl Fn(&[u8], &mut Lent) -> u64,
    text: fn(&Lent) -> String,
) -> Result<(), Difference> {
    let [before, after] = [&files[0], &files[1]].map(|file| {
        let mut areas = lent.clone();
        (call(file, &mut areas), areas)
    });
    if before == after {
        tally.count(before.0);
        return Ok(());
    }
    let told = |(number, areas): (u64, Lent)| format!("{number}{}", text(&areas));
    let answers = vec![(format!("{what} before"), told(before)), (format!("{what} after"), told(after))];
    Err(difference(tally, &files[0], answers))
}

fn compare_lists(
    tally: &mut Tally,
    files: &[Vec<u8>; 2],
    region: &Region,
    random: &mut Random,
) -> Result<(), Difference> {
    let asked = Lengths::asked(region.m, region.patients.len());
    for lengths in [asked, list::near(asked, random)] {
        let areas = Areas::patterned(lengths, random.number());
        compare_both(tally, files, ("list", areas), LIBRARY.list.call, areas_text)?;
    }
    Ok(())
}

/// The sheets of all clinics that there may be, and of one more.
fn compare_sheets(
    tally: &mut Tally,
    files: &[Vec<u8>; 2],
    region: &Region,
    random: &mut Random,
) -> Result<(), Difference> {
    let asked = Lengths::asked(region.m, region.patients.len());
    for clinic in 0..=16 {
        let areas = Areas::patterned(asked, random.number());
        let sheet = |file: &[u8], areas: &mut Areas| (LIBRARY.sheet.call)(file, clinic, areas);
        compare_both(tally, files, ("sheet", areas), sheet, areas_text)?;
    }
    Ok(())
}

/// Some plans, a longer one and one with a bed too high.
fn compare_prices(
    tally: &mut Tally,
    files: &[Vec<u8>; 2],
    region: &Region,
    random: &mut Random,
) -> Result<(), Difference> {
    let mut plans = plans::all_plans(region);
    random.shuffle(&mut plans);
    plans.truncate(6);
    plans.extend([[&plans[0][..], &[0]].concat(), vec![16; region.patients.len()]]);
    for plan in plans {
        let result = Area::patterned(random.pick(&[15, 16, 16, 16, 17]), random.number());
        let price = |file: &[u8], result: &mut Area| (LIBRARY.price.call)(file, &plan, result.lent());
        compare_both(tally, files, ("price", result), price, area_text)?;
    }
    Ok(())
}

/// Small regions that check refuses for their parents alone: afterwards the list and every sheet are those of the walk over all plans.
pub fn refused_files(tested: Tested<ParentsCall>, seed: u64, count: usize) -> Result<Tally, Difference> {
    let mut tally = Tally::of(&format!("{}, refused for parents", tested.name));
    let mut random = Random::of(seed, "parents, refused for parents");
    let mut before = [0; 2];
    for case in 0..count {
        let mut region = small::region(small::KINDS[case % small::KINDS.len()], &mut random);
        fill(&mut region, REFUSED[case % REFUSED.len()], &mut random);
        let [file, made] = before_and_after(&tally, tested, &region, &mut random)?;
        let number = outcomes::check(&file);
        before[0] += u64::from(number == 6);
        before[1] += u64::from(number == 10);
        let rows = plans::list(&region);
        compare_rows(&mut tally, (&file, &made), &rows, region.patients.len(), |areas| {
            (LIBRARY.list.call)(&made, areas)
        })?;
        for clinic in region.clinics() {
            let sheet = plans::sheet(&region, &rows, clinic);
            let width = region.patients_of(clinic).len();
            compare_rows(&mut tally, (&file, &made), &sheet, width, |areas| {
                (LIBRARY.sheet.call)(&made, clinic, areas)
            })?;
        }
    }
    tally.with_all(&[0, 13])?.with_seen(&[("check said 6 before", before[0]), ("10", before[1])])
}

/// The rows that a call leaves, or 13 where none are due.
fn compare_rows(
    tally: &mut Tally,
    (file, made): (&[u8], &[u8]),
    due: &[Row],
    width: usize,
    call: impl Fn(&mut Areas) -> u64,
) -> Result<(), Difference> {
    let mut areas = Areas::patterned(Lengths::asked(64, 32), 0);
    let number = call(&mut areas);
    let rows = if number == 0 { areas.rows(width) } else { Vec::new() };
    let due_number = if due.is_empty() { 13 } else { 0 };
    if number == due_number && rows == due {
        tally.count(number);
        return Ok(());
    }
    let answers = vec![
        ("the walk over all plans".to_string(), format!("{due_number} {due:?}")),
        ("after the parents are made".to_string(), format!("{number} {rows:?}")),
        ("independent reader of what was written".to_string(), format!("{:?}", reader::read(made).err())),
    ];
    Err(difference(tally, file, answers))
}
