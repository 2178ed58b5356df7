//! What parents refuses: each number of 1 to 9, the order of the questions, and nothing for the sake of a parent.

use crate::areas::Outputs;
use crate::compare::parents::written::file_with;
use crate::compare::parents::{compare, Given, RESULT_BYTES};
use crate::compare::report::{Difference, Tally};
use crate::compare::{asked, ParentsCall, Tested};
use crate::files::examples;
use crate::generate::graphs::{self, Graph, GRAPHS};
use crate::generate::parents::{fill, Filled, FILLED};
use crate::generate::spelling::{self, with_right_sum};
use crate::generate::{faults, small};
use crate::limits::{HIGHEST_NUMBER, MOST_DIGITS};
use crate::outcomes;
use crate::random::Random;

/// The questions that the call asks, in their order.
const ASKED: [u64; 11] = [1, 2, 3, 4, 5, 6, 7, 8, 9, 12, 15];

/// One fault each, with any parents.
pub fn one_fault(tested: Tested<ParentsCall>, seed: u64, count: usize) -> Result<Tally, Difference> {
    let mut tally = Tally::of(&format!("{}, one fault", tested.name));
    let mut random = Random::of(seed, "parents, one fault");
    asked::one_by_one(&ASKED, count, |faults| compare_faults(&mut tally, tested, faults, &mut random))?;
    tally.with_all(&ASKED)
}

/// Every two faults, and from each question on all of them.
pub fn two_faults(tested: Tested<ParentsCall>, seed: u64, count: usize) -> Result<Tally, Difference> {
    let mut tally = Tally::of(&format!("{}, two faults", tested.name));
    let mut random = Random::of(seed, "parents, two faults");
    asked::every_two(&ASKED, count, |faults| compare_faults(&mut tally, tested, faults, &mut random))?;
    tally.with_all(&ASKED)
}

/// A file and areas with faults of these questions; the first is the answer.
fn compare_faults(
    tally: &mut Tally,
    tested: Tested<ParentsCall>,
    faults: &[u64],
    random: &mut Random,
) -> Result<(), Difference> {
    let of_file: Vec<u64> = faults.iter().copied().filter(|question| *question < 10).collect();
    let given = Given::of(file_with(&of_file, random));
    let output = if faults.contains(&15) { random.below(given.needed()) } else { given.needed() };
    let result = if faults.contains(&12) { random.below(RESULT_BYTES) } else { RESULT_BYTES };
    let areas = Outputs::patterned(output, result, random.number());
    compare(tally, tested, &given, areas, Some(faults[0])).map(drop)
}

/// Files that check refuses for their parents alone, with 6 or with 10: nothing is wrong with them here. Then with another fault,
/// whose number is given though check would give 6.
pub fn parents_alone(tested: Tested<ParentsCall>, seed: u64, count: usize) -> Result<Tally, Difference> {
    let mut tally = Tally::of(&format!("{}, parents alone", tested.name));
    let mut random = Random::of(seed, "parents, parents alone");
    let mut before = [0; 2];
    for case in 0..count {
        for filled in FILLED {
            let mut region = match case % 2 {
                0 => small::any_region(&mut random),
                _ => graphs::any_size(GRAPHS[case % GRAPHS.len()], &mut random),
            };
            fill(&mut region, filled, &mut random);
            let given = Given::of_region(&region);
            before[0] += u64::from(outcomes::check(&given.file) == 6);
            before[1] += u64::from(outcomes::check(&given.file) == 10);
            compare(&mut tally, tested, &given, given.exact(&mut random), Some(0))?;
        }
        for question in 7..=10 {
            let mut region = faults::region_with_faults(&[question], &mut random);
            let itself = (0..).zip(&mut region.patients);
            itself.for_each(|(number, patient)| patient.parent = Some(number));
            let given = Given::of_region(&region);
            let known = if question == 10 { 0 } else { question };
            compare(&mut tally, tested, &given, given.exact(&mut random), Some(known))?;
        }
    }
    let seen = [("check said 6", before[0]), ("10", before[1])];
    tally.with_all(&[0, 7, 8, 9])?.with_seen(&seen)
}

/// Every cut of files with wrong parents, and all 255 other values at each place of them: refused, and never by a question past 4.
pub fn changed_files(tested: Tested<ParentsCall>, seed: u64, _: usize) -> Result<Tally, Difference> {
    let mut tally = Tally::of(&format!("{}, cut and changed files", tested.name));
    let mut random = Random::of(seed, "parents, cut and changed files");
    let mut drawn = graphs::region(Graph::Mixed, 4, &mut random);
    drawn.tables.truncate(3);
    fill(&mut drawn, Filled::Anyhow, &mut random);
    for whole in [examples::file("wrong_parents"), spelling::file_of(&drawn)] {
        for length in 0..whole.len() {
            let cut = Given::of(whole[..length].to_vec());
            compare(&mut tally, tested, &cut, cut.exact(&mut random), Some(2))?;
        }
        for (place, change) in (0..whole.len()).flat_map(|place| (1..=255).map(move |change| (place, change))) {
            let mut file = whole.clone();
            file[place] ^= change;
            let given = Given::of(file);
            // A larger number, or none, is not the one that is known.
            let known = given.made.as_ref().err().map_or(4, |number| *number.min(&4));
            compare(&mut tally, tested, &given, given.exact(&mut random), Some(known))?;
        }
    }
    tally.with_all(&[2, 3, 4])
}

/// One parent field of a good file written in every way: any number of 1 to 7 digits and a hyphen are fine, anything else gets 2.
pub fn parent_fields(tested: Tested<ParentsCall>, seed: u64, count: usize) -> Result<Tally, Difference> {
    let mut tally = Tally::of(&format!("{}, parent fields", tested.name));
    let mut random = Random::of(seed, "parents, parent fields");
    for case in 0..count {
        let region = graphs::any_size(GRAPHS[case % GRAPHS.len()], &mut random);
        let file = spelling::file_of(&region);
        let due = Given::of_region(&region).made;
        let place = random.below(region.patients.len());
        for word in good_words(place as u64) {
            let given = Given { file: with_parent(&file, place, &word), made: due.clone() };
            compare(&mut tally, tested, &given, given.exact(&mut random), Some(0))?;
        }
        for word in bad_words() {
            let given = Given::of(with_parent(&file, place, &word));
            compare(&mut tally, tested, &given, given.exact(&mut random), Some(2))?;
        }
    }
    tally.with_all(&[0, 2])
}

/// The file with this text in the place of one patient's parent, its sum made right again.
fn with_parent(file: &[u8], place: usize, word: &str) -> Vec<u8> {
    let mut lines: Vec<Vec<u8>> = spelling::lines_of(file).into_iter().map(<[u8]>::to_vec).collect();
    let line = String::from_utf8(lines[1 + place].clone()).expect("a patient line is text");
    let mut words: Vec<&str> = line.split(' ').collect();
    words[3] = word;
    lines[1 + place] = words.join(" ").into_bytes();
    with_right_sum(&lines.concat())
}

/// Numbers near a limit, and such as are taken for an earlier patient where numbers are cut.
fn good_words(itself: u64) -> Vec<String> {
    let numbers = [0, 1, 9, 10, 15, 16, 30, 31, 32, 33, 63, 64, 65, 127, 128, 255, 256, 257, 32_767, 32_768, 65_535];
    let more = [65_536, 65_537, 999_999, 1_000_000, 1_000_001, HIGHEST_NUMBER - 1, HIGHEST_NUMBER];
    let beside = [itself.saturating_sub(1), itself, itself + 1];
    let all = numbers.into_iter().chain(more).chain(beside);
    all.map(|number| number.to_string()).chain(["-".to_string()]).collect()
}

fn bad_words() -> Vec<String> {
    let eight_digits = 10u64.pow(MOST_DIGITS as u32).to_string();
    let words =
        ["", "00", "01", "0000001", "--", "-1", "+1", "1-", "x", "1 1", " 1", "1 ", "(1)", "1.0", "1,", "\t", "none"];
    words.into_iter().map(str::to_string).chain([eight_digits, "4294967296".to_string()]).collect()
}
