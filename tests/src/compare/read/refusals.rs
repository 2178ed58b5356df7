//! What read refuses: each question by itself, every two of them, cut and changed files.

use crate::areas::{ArrayLengths, Arrays};
use crate::compare::read::{compare, Given};
use crate::compare::report::{Difference, Tally};
use crate::compare::{asked, ReadCall, Tested};
use crate::files::examples;
use crate::generate::{faults, layout_faults};
use crate::random::Random;

/// The questions that the call asks, in their order.
const ASKED: [u64; 11] = [1, 2, 3, 4, 5, 6, 7, 8, 9, 10, 12];

/// One fault each.
pub fn one_fault(tested: Tested<ReadCall>, seed: u64, count: usize) -> Result<Tally, Difference> {
    let mut tally = Tally::of(&format!("{}, one fault", tested.name));
    let mut random = Random::of(seed, "read, one fault");
    asked::one_by_one(&ASKED, count, |faults| compare_faults(&mut tally, tested, faults, &mut random))?;
    tally.with_all(&ASKED)
}

/// Every two faults, and from each question on all of them.
pub fn two_faults(tested: Tested<ReadCall>, seed: u64, count: usize) -> Result<Tally, Difference> {
    let mut tally = Tally::of(&format!("{}, two faults", tested.name));
    let mut random = Random::of(seed, "read, two faults");
    asked::every_two(&ASKED, count, |faults| compare_faults(&mut tally, tested, faults, &mut random))?;
    tally.with_all(&ASKED)
}

/// A file and areas with faults of these questions; the first is the answer.
fn compare_faults(
    tally: &mut Tally,
    tested: Tested<ReadCall>,
    faults: &[u64],
    random: &mut Random,
) -> Result<(), Difference> {
    let of_file: Vec<u64> = faults.iter().copied().filter(|question| *question <= 10).collect();
    let given = Given::of(file_with(&of_file, random));
    let lengths = if faults.contains(&12) { shortened(given.asked(), random) } else { given.asked() };
    let areas = Arrays::patterned(lengths, random.number());
    compare(tally, tested, &given, areas, Some(faults[0])).map(drop)
}

/// A file with faults of these questions, 1 to 10, the smallest being its answer; a good one without any.
pub fn file_with(questions: &[u64], random: &mut Random) -> Vec<u8> {
    match questions.first() {
        Some(1) => faults::too_long(random),
        Some(2) => layout_faults::file(random),
        _ => faults::file_with_all(questions, random),
    }
}

/// One area, at times all of them, by a byte or more too short. In a sound region none of them is asked to be empty.
fn shortened(asked: ArrayLengths, random: &mut Random) -> ArrayLengths {
    if random.chance(20) {
        return asked.map(|needed| random.below(needed));
    }
    let mut lengths = asked;
    let place = random.below(4);
    lengths[place] = if random.chance(50) { asked[place] - 1 } else { random.below(asked[place]) };
    lengths
}

/// Every cut of a file with fixed beds, and all 255 other values at each place of it: refused, and never by a question past 4.
pub fn changed_files(tested: Tested<ReadCall>, seed: u64, _: usize) -> Result<Tally, Difference> {
    let mut tally = Tally::of(&format!("{}, cut and changed files", tested.name));
    let mut random = Random::of(seed, "read, cut and changed files");
    let whole = examples::file("stays_put");
    for length in 0..whole.len() {
        let cut = Given::of(whole[..length].to_vec());
        compare(&mut tally, tested, &cut, cut.exact(&mut random), Some(2))?;
    }
    for (place, change) in (0..whole.len()).flat_map(|place| (1..=255).map(move |change| (place, change))) {
        let mut file = whole.clone();
        file[place] ^= change;
        let given = Given::of(file);
        let mut areas = given.exact(&mut random);
        // A larger number, or none, is not the one that is known.
        let known = given.reading.read(&mut areas.clone()).clamp(2, 4);
        areas.result = areas.result.resized(random.pick(&[31, 32, 32, 32]));
        compare(&mut tally, tested, &given, areas, Some(known))?;
    }
    tally.with_all(&[2, 3, 4])
}
