//! Parents in every byte of every area: the file with its parents made, what is refused, and what holds of these parents.

pub mod answers;
pub mod by_hand;
pub mod choices;
pub mod refusals;
pub mod written;

use crate::areas::{length_near, Outputs};
use crate::compare::report::{outputs_text, readable, Difference, Tally};
use crate::compare::{ParentsCall, Tested};
use crate::generate::spelling;
use crate::random::Random;
use crate::region::Region;
use crate::{made_parents, outcomes, reader};

/// How many bytes of result question 12 asks for.
pub const RESULT_BYTES: usize = 8;

/// How long an output area is where the file is refused.
const SOME: usize = 400;

pub fn run(tested: Tested<ParentsCall>, seed: u64, count: usize) -> Result<Vec<Tally>, Difference> {
    Ok(vec![
        by_hand::run(tested, seed, count)?,
        written::good_files(tested, seed, count / 4)?,
        written::all_graphs(tested, seed, count)?,
        written::all_lengths(tested, seed, count)?,
        refusals::one_fault(tested, seed, count / 20)?,
        refusals::two_faults(tested, seed, count / 40)?,
        refusals::parents_alone(tested, seed, count / 8)?,
        refusals::parent_fields(tested, seed, count / 40)?,
        refusals::changed_files(tested, seed, count)?,
        choices::all_graphs(tested, seed, count)?,
        choices::any_tables(tested, seed, count / 20)?,
        answers::accepted_files(tested, seed, count / 8)?,
        answers::large_files(tested, seed, count / 80)?,
        answers::refused_files(tested, seed, count / 4)?,
    ])
}

/// A file, and what the independent program makes of it: the file with its parents made, or the number that refuses it.
pub struct Given {
    pub file: Vec<u8>,
    pub made: Result<Vec<u8>, u64>,
}

impl Given {
    pub fn of(file: Vec<u8>) -> Given {
        let made = made_parents::file(&file);
        Given { file, made }
    }

    pub fn of_region(region: &Region) -> Given {
        Given::of(spelling::file_of(region))
    }

    /// How long the written file is; some length where there is none.
    pub fn needed(&self) -> usize {
        self.made.as_ref().map_or(SOME, Vec::len)
    }

    /// Areas of just the lengths that are asked for.
    pub fn exact(&self, random: &mut Random) -> Outputs {
        Outputs::patterned(self.needed(), RESULT_BYTES, random.number())
    }

    /// Areas of lengths at or beside those that are asked for, or any.
    pub fn near(&self, random: &mut Random) -> Outputs {
        let output = length_near(self.needed(), random);
        let result = if random.chance(80) { RESULT_BYTES } else { random.below(18) };
        Outputs::patterned(output, result, random.number())
    }
}

/// One call, compared in its number and in every byte of every area; the file stays as it was. Where the number is known beforehand,
/// it must be that one. Gives the areas.
pub fn compare(
    tally: &mut Tally,
    tested: Tested<ParentsCall>,
    given: &Given,
    areas: Outputs,
    known: Option<u64>,
) -> Result<Outputs, Difference> {
    let (mut expected, mut after) = (areas.clone(), areas);
    let file = given.file.clone();
    let expected_number = outcomes::write(&given.made, &mut expected);
    let number = (tested.call)(&file, &mut after);
    let as_known = known.is_none_or(|known| known == number);
    if number == expected_number && after == expected && file == given.file && as_known {
        tally.count(number);
        return Ok(after);
    }
    let mut answers = vec![
        ("independent program".to_string(), format!("{expected_number}{}", outputs_text(&expected))),
        (tested.name.to_string(), format!("{number}{}", outputs_text(&after))),
    ];
    answers.extend(known.map(|known| ("known from how the file was made".to_string(), known.to_string())));
    if file != given.file {
        answers.push(("after the call".to_string(), "the file is another".to_string()));
    }
    Err(difference(tally, &given.file, answers))
}

fn difference(tally: &Tally, file: &[u8], answers: Vec<(String, String)>) -> Difference {
    Difference { kind: tally.kind().to_string(), file: file.to_vec(), answers }
}

/// What a call writes into an area that is more than long enough; the call must give 0.
fn written(
    tally: &Tally,
    tested: Tested<ParentsCall>,
    file: &[u8],
    random: &mut Random,
) -> Result<Vec<u8>, Difference> {
    let mut areas = Outputs::patterned(file.len() + SOME, RESULT_BYTES, random.number());
    let number = (tested.call)(file, &mut areas);
    if number == 0 {
        return Ok(areas.counted().to_vec());
    }
    let answers = vec![
        ("known from how the file was made".to_string(), "0".to_string()),
        (tested.name.to_string(), number.to_string()),
    ];
    Err(difference(tally, file, answers))
}

/// The region of a written file, which the independent reader must accept.
fn read_back(tally: &Tally, tested: Tested<ParentsCall>, file: &[u8], made: &[u8]) -> Result<Region, Difference> {
    reader::read(made).map_err(|number| {
        let answers = vec![
            (tested.name.to_string(), format!("\n{}", readable(made))),
            ("independent reader of that".to_string(), number.to_string()),
        ];
        difference(tally, file, answers)
    })
}
