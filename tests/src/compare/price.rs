//! Price in every byte of the result area, with result areas of every length around the limit.

use crate::areas::Area;
use crate::compare::report::{area_text, Difference, Tally};
use crate::compare::{PriceCall, Tested};
use crate::generate::{faulty, small, spelling};
use crate::numbers;
use crate::outcomes::Outcomes;
use crate::plans;
use crate::random::Random;
use crate::region::{Patient, Region};

pub fn run(tested: Tested<PriceCall>, seed: u64, count: usize) -> Result<Vec<Tally>, Difference> {
    Ok(vec![regions(tested, seed, count)?, faulty_files(tested, seed, count)?])
}

/// One call, compared in its number and in every byte of the result area.
pub fn compare(
    tally: &mut Tally,
    tested: Tested<PriceCall>,
    (file, outcomes): (&[u8], &Outcomes),
    plan: &[u8],
    result: Area,
) -> Result<(), Difference> {
    let (mut expected, mut given) = (result.clone(), result);
    let expected_number = outcomes.price(plan, expected.lent());
    let number = (tested.call)(file, plan, given.lent());
    if number == expected_number && given == expected {
        tally.count(number);
        return Ok(());
    }
    let answers = vec![
        ("plan".to_string(), format!("{plan:?}")),
        ("independent program".to_string(), format!("{expected_number}, result {}", area_text(&expected))),
        (tested.name.to_string(), format!("{number}, result {}", area_text(&given))),
    ];
    Err(Difference { kind: tally.kind().to_string(), file: file.to_vec(), answers })
}

/// Plans of small regions, with the fixed beds and without, and plans that are too long, too short, or have a bed too high.
pub fn regions(tested: Tested<PriceCall>, seed: u64, count: usize) -> Result<Tally, Difference> {
    let mut tally = Tally::of(&format!("{}, regions", tested.name));
    let mut random = Random::of(seed, "price, regions");
    for case in 0..count {
        let region = small::region(small::KINDS[case % small::KINDS.len()], &mut random);
        let file = spelling::file_of(&region);
        let outcomes = Outcomes::of(&file);
        for plan in plans_to_try(&region, &mut random) {
            let length = if random.chance(70) { 16 } else { random.below(40) };
            let result = Area::patterned(length, random.number());
            compare(&mut tally, tested, (&file, &outcomes), &plan, result)?;
        }
        let plan = vec![0; region.patients.len()];
        for length in 0..=24 {
            compare(&mut tally, tested, (&file, &outcomes), &plan, Area::patterned(length, random.number()))?;
        }
    }
    tally.with_all(&[0, 12, 14])
}

fn plans_to_try(region: &Region, random: &mut Random) -> Vec<Vec<u8>> {
    let mut good = plans::all_plans(region);
    random.shuffle(&mut good);
    good.truncate(24);
    let mut plans = good.clone();
    for plan in good.iter().take(6) {
        let place = random.below(plan.len());
        let mut too_high = plan.clone();
        too_high[place] = random.pick(&[region.patients[place].beds as u8, 16, 255]);
        plans.push(too_high);
        plans.push(plan[..place].to_vec());
        plans.push([&plan[..], &[0]].concat());
    }
    plans.push(vec![0; 33]);
    plans.extend(plans_that_stay(region, &good[0]));
    plans
}

/// A plan with the fixed beds; then with another bed for one of those patients, for each in turn.
fn plans_that_stay(region: &Region, plan: &[u8]) -> Vec<Vec<u8>> {
    let bed_of = |(bed, patient): (&u8, &Patient)| patient.fixed.map_or(*bed, |fixed| fixed as u8);
    let staying: Vec<u8> = plan.iter().zip(&region.patients).map(bed_of).collect();
    let mut plans = vec![staying.clone()];
    for (place, patient) in region.patients.iter().enumerate().filter(|(_, patient)| patient.fixed.is_some()) {
        let mut moved = staying.clone();
        moved[place] = (moved[place] + 1) % patient.beds as u8;
        plans.push(moved);
    }
    plans
}

/// Files that are refused, with result areas of any length.
pub fn faulty_files(tested: Tested<PriceCall>, seed: u64, count: usize) -> Result<Tally, Difference> {
    let mut tally = Tally::of(&format!("{}, faulty files", tested.name));
    let mut random = Random::of(seed, "price, faulty files");
    for case in 0..count {
        let file = faulty::file(case, &mut random);
        let outcomes = Outcomes::of(&file);
        let length = random.pick(&[0, 7, 8, 15, 16, 17]);
        let result = Area::patterned(length, random.number());
        compare(&mut tally, tested, (&file, &outcomes), &[0, 0], result)?;
    }
    tally.with_all(numbers::OF_FILES)
}
