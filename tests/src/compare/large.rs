//! Regions with too many plans to walk: the proved library beside the baseline, which the other
//! comparisons hold to the walk over all plans.

use crate::areas::{Areas, Lengths};
use crate::baseline;
use crate::compare::report::{areas_text, Difference, Tally};
use crate::compare::{ListCall, SheetCall, Tested};
use crate::generate::{large, spelling};
use crate::random::Random;
use crate::region::Region;

pub fn lists(tested: Tested<ListCall>, seed: u64, count: usize) -> Result<Tally, Difference> {
    let mut tally = Tally::of(&format!("{}, large regions", tested.name));
    let mut random = Random::of(seed, "list, large regions");
    for _ in 0..count {
        let region = large::region(&mut random);
        compare(&mut tally, &region, &mut random, baseline::calls::list, tested.call)?;
    }
    Ok(tally)
}

/// The sheet of every clinic of each region.
pub fn sheets(tested: Tested<SheetCall>, seed: u64, count: usize) -> Result<Tally, Difference> {
    let mut tally = Tally::of(&format!("{}, large regions", tested.name));
    let mut random = Random::of(seed, "sheet, large regions");
    for _ in 0..count {
        let region = large::region(&mut random);
        for clinic in 0..=15 {
            let expected = |file: &[u8], areas: &mut Areas| baseline::calls::sheet(file, clinic, areas);
            let given = |file: &[u8], areas: &mut Areas| (tested.call)(file, clinic, areas);
            compare(&mut tally, &region, &mut random, expected, given)?;
        }
    }
    tally.with_all(&[0, 11])
}

fn compare(
    tally: &mut Tally,
    region: &Region,
    random: &mut Random,
    baseline: impl Fn(&[u8], &mut Areas) -> u64,
    library: impl Fn(&[u8], &mut Areas) -> u64,
) -> Result<(), Difference> {
    let file = spelling::file_of(region);
    let areas = Areas::patterned(Lengths::asked(region.m, region.patients.len()), random.number());
    let (mut expected, mut given) = (areas.clone(), areas);
    let numbers = (baseline(&file, &mut expected), library(&file, &mut given));
    if numbers.0 == numbers.1 && expected == given {
        tally.count(numbers.0);
        return Ok(());
    }
    let answers = vec![
        ("baseline".to_string(), format!("{}{}", numbers.0, areas_text(&expected))),
        ("proved library".to_string(), format!("{}{}", numbers.1, areas_text(&given))),
    ];
    Err(Difference { kind: tally.kind().to_string(), file, answers })
}
