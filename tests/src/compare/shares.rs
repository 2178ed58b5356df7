//! The clinics' shares by running: for every row of a list, a file in which all patients keep the beds of that row. Its one plan
//! is the row, so each clinic's sheet has one row with the clinic's share; the shares are the independent program's, and add up.

use crate::areas::{Areas, Lengths};
use crate::boundary;
use crate::compare::report::{Difference, Tally, MANY};
use crate::compare::{SheetCall, Tested};
use crate::generate::pairs::{self, Sharing};
use crate::generate::{large, small, spelling};
use crate::lent::numbers_in;
use crate::plans::{self, Row};
use crate::random::Random;
use crate::region::{Patient, Region};

pub fn run(tested: Tested<SheetCall>, seed: u64, count: usize) -> Result<Vec<Tally>, Difference> {
    Ok(vec![small_regions(tested, seed, count / 4)?, large_regions(tested, seed, count / 400)?])
}

/// Small regions, half of them with a table that joins; their lists are the independent program's.
pub fn small_regions(tested: Tested<SheetCall>, seed: u64, count: usize) -> Result<Tally, Difference> {
    let mut random = Random::of(seed, "sheet, shares");
    let regions = (0..count).map(|case| match case % 2 {
        0 => small::region(small::KINDS[case / 2 % small::KINDS.len()], &mut random),
        _ => pairs::pair(pairs::SMALL, Sharing::Joined, &mut random).one.0,
    });
    every_row(Tally::of(&format!("{}, shares", tested.name)), tested, regions, plans::list)
}

/// Regions with too many plans to walk; their lists are the proved library's.
pub fn large_regions(tested: Tested<SheetCall>, seed: u64, count: usize) -> Result<Tally, Difference> {
    let mut random = Random::of(seed, "sheet, shares of large regions");
    let regions = (0..count).map(|_| large::region(&mut random));
    every_row(Tally::of(&format!("{}, shares, large regions", tested.name)), tested, regions, listed)
}

fn listed(region: &Region) -> Vec<Row> {
    let mut areas = Areas::patterned(Lengths::asked(region.m, region.patients.len()), 0);
    boundary::list(&spelling::file_of(region), &mut areas);
    areas.rows(region.patients.len())
}

fn every_row(
    mut tally: Tally,
    tested: Tested<SheetCall>,
    regions: impl Iterator<Item = Region>,
    list: impl Fn(&Region) -> Vec<Row>,
) -> Result<Tally, Difference> {
    let mut divided = 0;
    for region in regions {
        for row in list(&region) {
            let file = spelling::file_of(&staying(&region, &row));
            let given: Vec<Share> = region.clinics().iter().map(|clinic| share(tested, &file, *clinic, &row)).collect();
            let due = shares_due(&region, &row);
            if given != due || due.iter().map(|share| share.cost).sum::<u64>() != row.cost {
                return Err(difference(&tally, tested, file, &row, &[due, given]));
            }
            divided += u64::from(due.iter().filter(|share| share.cost > 0).count() > 1);
            tally.count(0);
        }
    }
    tally.remark(format!("({divided} rows that several clinics pay for)"));
    if divided > 0 || tally.cases() < MANY {
        return Ok(tally);
    }
    let answers = vec![("rows that several clinics pay for".to_string(), "none".to_string())];
    Err(Difference { kind: tally.kind().to_string(), file: Vec::new(), answers })
}

/// The region in which everybody keeps the bed of the row.
fn staying(region: &Region, row: &Row) -> Region {
    let stay = |(patient, bed): (&Patient, &u8)| patient.clone().staying_in(u64::from(*bed));
    Region { patients: region.patients.iter().zip(&row.beds).map(stay).collect(), ..region.clone() }
}

/// What a clinic's sheet gives: its number, and the cost in its first row.
#[derive(Debug, PartialEq)]
struct Share {
    number: u64,
    cost: u64,
}

/// The shares of the clinics that have patients, by the independent program.
fn shares_due(region: &Region, row: &Row) -> Vec<Share> {
    let clinics = region.clinics().into_iter();
    clinics.map(|clinic| Share { number: 0, cost: plans::own_cost(region, clinic, &row.beds) }).collect()
}

fn share(tested: Tested<SheetCall>, file: &[u8], clinic: u64, row: &Row) -> Share {
    let mut areas = Areas::patterned(Lengths::asked(64, row.beds.len()), clinic);
    let number = (tested.call)(file, clinic, &mut areas);
    Share { number, cost: numbers_in(&areas.costs)[0] }
}

fn difference(
    tally: &Tally,
    tested: Tested<SheetCall>,
    file: Vec<u8>,
    row: &Row,
    [due, given]: &[Vec<Share>; 2],
) -> Difference {
    let answers = vec![
        ("total of the one plan".to_string(), row.cost.to_string()),
        ("independent program, for each clinic".to_string(), format!("{due:?}")),
        (format!("{}, for each clinic", tested.name), format!("{given:?}")),
    ];
    Difference { kind: tally.kind().to_string(), file, answers }
}
