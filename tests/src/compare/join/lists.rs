//! What a joined file lists: the first pairs of a plan of each region, by added totals, then the first's beds, then the second's.
//! And its sheets, which begin those of the two files.

use crate::areas::{Areas, Lengths};
use crate::compare::join::{difference, written, Files};
use crate::compare::report::{Difference, Tally};
use crate::compare::{JoinCall, Tested, LIBRARY};
use crate::generate::joins;
use crate::plans::{self, Row};
use crate::random::Random;
use crate::reader;
use crate::region::Region;

/// The rows of a list or a sheet, or the number that refuses them.
type Rows = Result<Vec<Row>, u64>;

/// The list of a file, by the proved library.
pub fn listed(file: &[u8]) -> Rows {
    let patients = reader::said(file).map_or(0, |region| region.patients.len());
    rows_of(patients, |areas| (LIBRARY.list.call)(file, areas))
}

fn sheet(file: &[u8], clinic: u64) -> Rows {
    let patients = reader::said(file).map_or(0, |region| region.patients_of(clinic).len());
    rows_of(patients, |areas| (LIBRARY.sheet.call)(file, clinic, areas))
}

fn rows_of(width: usize, call: impl Fn(&mut Areas) -> u64) -> Rows {
    let mut areas = Areas::patterned(Lengths::asked(64, 32), 0);
    match call(&mut areas) {
        0 => Ok(areas.rows(width)),
        number => Err(number),
    }
}

/// The first m pairs of a row of each, as rows; 13 where there is none.
fn first_pairs(first: &[Row], second: &[Row], m: u64) -> Rows {
    let mut pairs: Vec<(u64, &[u8], &[u8])> = Vec::new();
    for one in first {
        pairs.extend(second.iter().map(|other| (one.cost + other.cost, &one.beds[..], &other.beds[..])));
    }
    pairs.sort();
    pairs.truncate(m as usize);
    if pairs.is_empty() {
        return Err(13);
    }
    Ok(pairs.into_iter().map(|(cost, one, other)| Row { cost, beds: [one, other].concat() }).collect())
}

/// All allowed plans of a region, however many are wanted.
fn all_allowed(region: &Region) -> Vec<Row> {
    plans::list(&Region { m: u64::MAX, ..region.clone() })
}

/// The list of the joined file beside the first pairs of the rows that the two files list, and beside what else is due.
fn compare_listed(
    tally: &mut Tally,
    tested: Tested<JoinCall>,
    (files, m): (&Files, u64),
    due: Option<Rows>,
    random: &mut Random,
) -> Result<Rows, Difference> {
    let given = listed(&written(tally, tested, files, random)?);
    let [first, second] = [&files.first, &files.second].map(|file| listed(file).unwrap_or_default());
    let of_lists = first_pairs(&first, &second, m);
    if given == of_lists && due.as_ref().is_none_or(|due| given == *due) {
        tally.count(given.as_ref().err().copied().unwrap_or(0));
        return Ok(given);
    }
    let mut answers = vec![
        ("pairs of the two lists".to_string(), format!("{of_lists:?}")),
        (format!("list of what {} writes", tested.name), format!("{given:?}")),
    ];
    answers.extend(due.map(|due| ("pairs of all allowed plans".to_string(), format!("{due:?}"))));
    Err(difference(tally, files, answers))
}

/// Small regions: the joined file's list beside all pairs of their plans. Some have no allowed plan, and then it has none.
pub fn small_pairs(tested: Tested<JoinCall>, seed: u64, count: usize) -> Result<Tally, Difference> {
    let mut tally = Tally::of(&format!("{}, lists of pairs", tested.name));
    let mut random = Random::of(seed, "join, lists of pairs");
    let (mut unlike, mut cut, mut ties, mut none) = (0, 0, 0, [0; 3]);
    for case in 0..count {
        let (first, second) = joins::walkable(case, &mut random);
        let m = first.m.min(second.m);
        let (one, other) = (all_allowed(&first), all_allowed(&second));
        let due = first_pairs(&one, &other, m);
        unlike += u64::from(first.m != second.m && due.is_ok());
        cut += u64::from(one.len() * other.len() > m as usize);
        none[0] += u64::from(one.is_empty() && !other.is_empty());
        none[1] += u64::from(!one.is_empty() && other.is_empty());
        none[2] += u64::from(one.is_empty() && other.is_empty());
        let v = first.patients.len();
        let files = Files::of_pair(&(first, second));
        let rows = compare_listed(&mut tally, tested, (&files, m), Some(due), &mut random)?.unwrap_or_default();
        ties +=
            u64::from(rows.windows(2).any(|two| two[0].cost == two[1].cost && two[0].beds[..v] != two[1].beds[..v]));
    }
    let seen = [
        ("unlike m", unlike),
        ("cut at m", cut),
        ("totals that unlike rows of the first share", ties),
        ("no plan of the first", none[0]),
        ("of the second", none[1]),
        ("of both", none[2]),
    ];
    tally.with_all(&[0, 13])?.with_seen(&seen)
}

/// Regions with too many plans to walk: the pairs are those of the rows that the two files list.
pub fn large_pairs(tested: Tested<JoinCall>, seed: u64, count: usize) -> Result<Tally, Difference> {
    let mut tally = Tally::of(&format!("{}, lists of large pairs", tested.name));
    let mut random = Random::of(seed, "join, lists of large pairs");
    for _ in 0..count {
        let pair = joins::large(&mut random);
        let m = pair.0.m.min(pair.1.m);
        compare_listed(&mut tally, tested, (&Files::of_pair(&pair), m), None, &mut random).map(drop)?;
    }
    tally.with_all(&[0])
}

/// The sheets of every clinic: the one of the joined file is the beginning of the one of the clinic's own file. Demand 3 says so of
/// clinics that no table joins to others. It holds of all, since the rows of either list come in the joined one in their order.
pub fn sheets(tested: Tested<JoinCall>, seed: u64, count: usize) -> Result<Tally, Difference> {
    let mut tally = Tally::of(&format!("{}, sheets", tested.name));
    let mut random = Random::of(seed, "join, sheets");
    let (mut apart, mut several, mut shorter) = ([0; 2], 0, 0);
    for case in 0..count {
        let pair = joins::small(case, &mut random);
        let files = Files::of_pair(&pair);
        let file = written(&tally, tested, &files, &mut random)?;
        let no_plan = [&pair.0, &pair.1].into_iter().any(|region| plans::list(region).is_empty());
        for (own, region) in [(&files.first, &pair.0), (&files.second, &pair.1)] {
            for clinic in region.clinics() {
                let (alone, together) = (sheet(own, clinic), sheet(&file, clinic));
                if !begins(&alone, &together, no_plan) {
                    return Err(unlike_sheets(&tally, &files, clinic, [alone, together]));
                }
                tally.count(together.as_ref().err().copied().unwrap_or(0));
                if let (Ok(alone), Ok(together)) = (alone, together) {
                    apart[usize::from(is_joined(region, clinic))] += 1;
                    several += u64::from(together.len() > 1);
                    shorter += u64::from(together.len() < alone.len());
                }
            }
        }
    }
    let seen = [
        ("that no table joins to others", apart[0]),
        ("that one does", apart[1]),
        ("sheets of several rows", several),
        ("shorter ones than alone", shorter),
    ];
    tally.with_all(&[0, 13])?.with_seen(&seen)
}

/// Has the joined sheet rows, which begin those of the clinic's own file; or 13, where one of the two has no plan?
fn begins(alone: &Rows, together: &Rows, no_plan: bool) -> bool {
    match (alone, together) {
        (_, Err(number)) => no_plan && *number == 13,
        (Ok(alone), Ok(together)) => !no_plan && !together.is_empty() && alone.starts_with(together),
        (Err(_), Ok(_)) => false,
    }
}

/// Has a table a member in the clinic and one elsewhere?
fn is_joined(region: &Region, clinic: u64) -> bool {
    let inside = |member: &u64| region.patients[*member as usize].clinic == clinic;
    region.tables.iter().any(|table| table.members.iter().any(inside) && !table.members.iter().all(inside))
}

fn unlike_sheets(tally: &Tally, files: &Files, clinic: u64, [alone, together]: [Rows; 2]) -> Difference {
    let answers = vec![
        (format!("sheet of clinic {clinic} in its own file"), format!("{alone:?}")),
        ("in the joined one".to_string(), format!("{together:?}")),
    ];
    difference(tally, files, answers)
}
