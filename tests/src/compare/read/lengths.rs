//! Areas of every length around what question 12 asks for, of good files and of refused ones.

use crate::areas::{ArrayLengths, Arrays};
use crate::compare::read::refusals::file_with;
use crate::compare::read::{compare, Given};
use crate::compare::report::{Difference, Tally};
use crate::compare::{ReadCall, Tested};
use crate::generate::{full_size, small};
use crate::numbers;
use crate::random::Random;
use crate::reading::MOST_BYTES;

/// The longest result area that is tried.
const LONGEST_RESULT: usize = 40;

/// Each area from nothing to past its need, each short by itself and with others, lengths of two areas exchanged, result areas of 0 to
/// 40 bytes: of small files. Of files of full size lengths beside the need.
pub fn good_files(tested: Tested<ReadCall>, seed: u64, _: usize) -> Result<Tally, Difference> {
    let mut tally = Tally::of(&format!("{}, all lengths", tested.name));
    let mut random = Random::of(seed, "read, all lengths");
    for kind in small::KINDS {
        let given = Given::of_region(&small::region(kind, &mut random));
        let asked = given.asked();
        let lengths = all_of_each(asked).into_iter().chain(all_results(asked)).chain(some_short(asked));
        for lengths in lengths.chain(exchanged(asked)) {
            compare_lent(&mut tally, tested, &given, lengths, &mut random)?;
        }
    }
    for region in [full_size::region(&mut random), full_size::longest_region()] {
        let given = Given::of_region(&region);
        for lengths in beside(given.asked()).into_iter().chain(some_short(given.asked())) {
            compare_lent(&mut tally, tested, &given, lengths, &mut random)?;
        }
    }
    tally.with_all(&[0, 12])
}

/// Files with a fault of each question: no area is written, whatever the lengths, but for a result area that is long enough.
pub fn refused_files(tested: Tested<ReadCall>, seed: u64, _: usize) -> Result<Tally, Difference> {
    let mut tally = Tally::of(&format!("{}, all lengths, refused files", tested.name));
    let mut random = Random::of(seed, "read, all lengths, refused files");
    for question in numbers::OF_FILES {
        let given = Given::of(file_with(&[*question], &mut random));
        for areas in [[0; 4], [1; 4], given.asked(), MOST_BYTES] {
            for result in 0..=LONGEST_RESULT {
                let areas = Arrays::patterned(with(areas, 3, result), random.number());
                compare(&mut tally, tested, &given, areas, Some(*question))?;
            }
        }
    }
    tally.with_all(numbers::OF_FILES)
}

/// The number is 0 where no area is shorter than asked for, and else 12.
fn compare_lent(
    tally: &mut Tally,
    tested: Tested<ReadCall>,
    given: &Given,
    lengths: ArrayLengths,
    random: &mut Random,
) -> Result<(), Difference> {
    let short = lengths.iter().zip(given.asked()).any(|(lent, asked)| *lent < asked);
    let areas = Arrays::patterned(lengths, random.number());
    compare(tally, tested, given, areas, Some(if short { 12 } else { 0 })).map(drop)
}

fn with(lengths: ArrayLengths, place: usize, length: usize) -> ArrayLengths {
    let mut other = lengths;
    other[place] = length;
    other
}

/// Each area in turn from nothing to past its need, long ones at both ends; the others just long enough.
fn all_of_each(asked: ArrayLengths) -> Vec<ArrayLengths> {
    let lengths = |place: usize| (0..asked[place].min(150)).chain(asked[place].saturating_sub(150)..asked[place] + 50);
    (0..4).flat_map(|place| lengths(place).map(move |length| with(asked, place, length))).collect()
}

/// Each area in turn a byte or a number shorter and longer than its need.
fn beside(asked: ArrayLengths) -> Vec<ArrayLengths> {
    let lengths = |needed: usize| [needed - 32, needed - 8, needed - 1, needed, needed + 1, needed + 8, needed + 48];
    (0..4).flat_map(|place| lengths(asked[place]).map(|length| with(asked, place, length))).collect()
}

/// Every length of the result area, the others being empty, a byte short, just long enough and longer.
fn all_results(asked: ArrayLengths) -> Vec<ArrayLengths> {
    let others = [[0; 4], asked.map(|needed| needed.saturating_sub(1)), asked, asked.map(|needed| needed + 17)];
    others.into_iter().flat_map(|lengths| (0..=LONGEST_RESULT).map(move |result| with(lengths, 3, result))).collect()
}

/// Every choice of areas that are short, by a byte, by a number or altogether; the others just long enough, or longer.
fn some_short(asked: ArrayLengths) -> Vec<ArrayLengths> {
    let mut all = Vec::new();
    for choice in 0..16 {
        for (by, more) in [(1, 0), (8, 0), (usize::MAX, 0), (1, 1), (8, 64)] {
            all.push(std::array::from_fn(|place| match choice & 1 << place {
                0 => asked[place] + more,
                _ => asked[place].saturating_sub(by),
            }));
        }
    }
    all
}

/// The lengths of every two areas exchanged, and one too short while another has what it lacks.
fn exchanged(asked: ArrayLengths) -> Vec<ArrayLengths> {
    let mut all = Vec::new();
    for (one, other) in (0..4).flat_map(|one| (0..4).map(move |other| (one, other))) {
        let mut lengths = asked;
        lengths.swap(one, other);
        all.push(lengths);
        let less = asked[one].min(8);
        all.push(with(with(asked, other, asked[other] + less), one, asked[one] - less));
    }
    all
}
