//! Join in every byte of every area: the joined file, what is refused and of which file, and what a joined file then lists.

pub mod by_hand;
pub mod lists;
pub mod refusals;
pub mod written;

use crate::areas::{length_near, Outputs};
use crate::compare::report::{outputs_text, readable, Difference, Tally};
use crate::compare::{JoinCall, Tested};
use crate::generate::joins::{self, Pair};
use crate::generate::spelling;
use crate::joining::{Joining, RESULT_BYTES};
use crate::random::Random;
use crate::region::Region;

/// How long an output area is where the files make none.
const SOME: usize = 400;

/// What is known of a pair from how it was made: the number, and which file it is about.
pub type Known = (u64, u64);

pub fn run(tested: Tested<JoinCall>, seed: u64, count: usize) -> Result<Vec<Tally>, Difference> {
    Ok(vec![
        by_hand::run(tested, seed, count)?,
        written::good_pairs(tested, seed, count / 4)?,
        written::all_lengths(tested, seed, count)?,
        written::threes(tested, seed, count / 8)?,
        refusals::either_file(tested, seed, count / 40)?,
        refusals::two_faults(tested, seed, count / 200)?,
        refusals::clinics(tested, seed, count / 4)?,
        refusals::sizes(tested, seed, count / 8)?,
        lists::small_pairs(tested, seed, count / 4)?,
        lists::large_pairs(tested, seed, count / 20)?,
        lists::sheets(tested, seed, count / 4)?,
    ])
}

/// Two files, and what the independent program makes of them.
pub struct Files {
    pub first: Vec<u8>,
    pub second: Vec<u8>,
    pub joining: Joining,
}

impl Files {
    pub fn of(first: Vec<u8>, second: Vec<u8>) -> Files {
        let joining = Joining::of(&first, &second);
        Files { first, second, joining }
    }

    pub fn of_pair((first, second): &Pair) -> Files {
        Files::of(spelling::file_of(first), spelling::file_of(second))
    }

    /// How long the joined file is; some length where there is none.
    pub fn needed(&self) -> usize {
        self.joining.file().map_or(SOME, <[u8]>::len)
    }

    /// Areas of just the lengths that are asked for.
    pub fn exact(&self, random: &mut Random) -> Outputs {
        Outputs::patterned(self.needed(), RESULT_BYTES, random.number())
    }

    /// Areas of lengths at or beside those that are asked for, or any.
    pub fn near(&self, random: &mut Random) -> Outputs {
        let output = length_near(self.needed(), random);
        let result = if random.chance(80) { RESULT_BYTES } else { random.below(34) };
        Outputs::patterned(output, result, random.number())
    }
}

/// One call, compared in its number and in every byte of every area; the files stay as they were. Files that are alike are lent as
/// one. Where the answer is known beforehand, it must be that one. Gives the areas.
pub fn compare(
    tally: &mut Tally,
    tested: Tested<JoinCall>,
    files: &Files,
    areas: Outputs,
    known: Option<Known>,
) -> Result<Outputs, Difference> {
    let (mut expected, mut given) = (areas.clone(), areas);
    let (first, other) = (files.first.clone(), files.second.clone());
    let second = if first == other { &first } else { &other };
    let expected_number = files.joining.join(&mut expected);
    let number = (tested.call)(&first, second, &mut given);
    let unchanged = first == files.first && *second == files.second;
    let as_known = known.is_none_or(|known| known == (number, files.joining.which()));
    if number == expected_number && given == expected && unchanged && as_known {
        tally.count(number);
        return Ok(given);
    }
    let mut answers = vec![
        ("independent program".to_string(), format!("{expected_number}{}", outputs_text(&expected))),
        (tested.name.to_string(), format!("{number}{}", outputs_text(&given))),
    ];
    answers.extend(known.map(|known| ("known from how the files were made".to_string(), format!("{known:?}"))));
    if !unchanged {
        answers.push(("after the call".to_string(), "a file is another".to_string()));
    }
    Err(difference(tally, files, answers))
}

fn difference(tally: &Tally, files: &Files, mut answers: Vec<(String, String)>) -> Difference {
    answers.insert(0, ("the second file".to_string(), format!("\n{}", readable(&files.second))));
    Difference { kind: tally.kind().to_string(), file: files.first.clone(), answers }
}

/// A file of any kind before and behind one that can mostly be joined with it.
pub fn compare_with_partner(
    tally: &mut Tally,
    tested: Tested<JoinCall>,
    (file, region): (&[u8], Option<&Region>),
    random: &mut Random,
) -> Result<(), Difference> {
    let partner = spelling::file_of(&joins::partner(region, random));
    let before = Files::of(file.to_vec(), partner.clone());
    compare(tally, tested, &before, before.near(random), None)?;
    let behind = Files::of(partner, file.to_vec());
    compare(tally, tested, &behind, behind.near(random), None).map(drop)
}

/// What a call writes into an area that is more than long enough; the call must give 0.
fn written(tally: &Tally, tested: Tested<JoinCall>, files: &Files, random: &mut Random) -> Result<Vec<u8>, Difference> {
    let mut areas = Outputs::patterned(files.needed() + SOME, RESULT_BYTES, random.number());
    let number = (tested.call)(&files.first, &files.second, &mut areas);
    if number == 0 {
        return Ok(areas.counted().to_vec());
    }
    let answers = vec![(tested.name.to_string(), format!("{number} for files that can be joined"))];
    Err(difference(tally, files, answers))
}
