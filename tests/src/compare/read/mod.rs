//! Read in every byte of every area: the arrays of good files, what is refused, areas of every length, and what is written of the arrays.

pub mod back;
pub mod by_hand;
pub mod files;
pub mod lengths;
pub mod refusals;

use crate::areas::{ArrayLengths, Arrays};
use crate::compare::report::{arrays_text, Difference, Tally};
use crate::compare::{ReadCall, Tested};
use crate::generate::spelling;
use crate::random::Random;
use crate::reading::{Reading, RESULT_BYTES};
use crate::region::Region;

/// How many bytes are lent with a file that is refused.
const SOME: ArrayLengths = [64, 96, 80, RESULT_BYTES];

pub fn run(tested: Tested<ReadCall>, seed: u64, count: usize) -> Result<Vec<Tally>, Difference> {
    Ok(vec![
        by_hand::run(tested, seed, count)?,
        files::good_files(tested, seed, count)?,
        files::fields(tested, seed, count)?,
        files::counts(tested, seed, count)?,
        lengths::good_files(tested, seed, count)?,
        lengths::refused_files(tested, seed, count)?,
        refusals::one_fault(tested, seed, count / 10)?,
        refusals::two_faults(tested, seed, count / 40)?,
        refusals::changed_files(tested, seed, count)?,
        back::files(tested, seed, count / 4)?,
        back::regions(tested, seed, count / 4)?,
        back::changed_regions(tested, seed, count / 4)?,
    ])
}

/// A file, and what the independent program reads of it.
pub struct Given {
    pub file: Vec<u8>,
    pub reading: Reading,
}

impl Given {
    pub fn of(file: Vec<u8>) -> Given {
        let reading = Reading::of(&file);
        Given { file, reading }
    }

    pub fn of_region(region: &Region) -> Given {
        Given::of(spelling::file_of(region))
    }

    /// The lengths that question 12 asks for; some where the file is refused.
    pub fn asked(&self) -> ArrayLengths {
        self.reading.asked().unwrap_or(SOME)
    }

    /// Areas of just these lengths.
    pub fn exact(&self, random: &mut Random) -> Arrays {
        Arrays::patterned(self.asked(), random.number())
    }

    /// Areas of lengths at or beside them, or any.
    pub fn near(&self, random: &mut Random) -> Arrays {
        let lengths = self.asked().map(|asked| near(asked, random));
        Arrays::patterned(lengths, random.number())
    }
}

fn near(asked: usize, random: &mut Random) -> usize {
    match random.below(24) {
        0 => asked.saturating_sub(1),
        1 => random.below(asked + 1),
        2..=6 => asked + 1,
        7..=10 => asked + random.below(60),
        _ => asked,
    }
}

/// One call, compared in its number and in every byte of every area; the file stays as it was. Where the number is known beforehand,
/// it must be that one. Gives the areas.
pub fn compare(
    tally: &mut Tally,
    tested: Tested<ReadCall>,
    given: &Given,
    areas: Arrays,
    known: Option<u64>,
) -> Result<Arrays, Difference> {
    let (mut expected, mut after) = (areas.clone(), areas);
    let file = given.file.clone();
    let expected_number = given.reading.read(&mut expected);
    let number = (tested.call)(&file, &mut after);
    let as_known = known.is_none_or(|known| known == number);
    if number == expected_number && after == expected && file == given.file && as_known {
        tally.count(number);
        return Ok(after);
    }
    let mut answers = vec![
        ("independent program".to_string(), format!("{expected_number}{}", arrays_text(&expected))),
        (tested.name.to_string(), format!("{number}{}", arrays_text(&after))),
    ];
    answers.extend(known.map(|known| ("known from how the file was made".to_string(), known.to_string())));
    if file != given.file {
        answers.push(("after the call".to_string(), "the file is another".to_string()));
    }
    Err(difference(tally, &given.file, answers))
}

fn difference(tally: &Tally, file: &[u8], answers: Vec<(String, String)>) -> Difference {
    Difference { kind: tally.kind().to_string(), file: file.to_vec(), answers }
}
