//! What parents writes where it gives 0: the region's file with other parents, which check accepts; areas of every length.

use crate::areas::Outputs;
use crate::boundary;
use crate::compare::parents::{compare, difference, Given, RESULT_BYTES};
use crate::compare::report::{readable, Difference, Tally};
use crate::compare::{ParentsCall, Tested};
use crate::generate::graphs::{self, Graph, GRAPHS};
use crate::generate::parents::{fill, set_parents, Filled, FILLED};
use crate::generate::{faults, full_size, large, layout_faults, small, spelling};
use crate::limits::MOST_WRITTEN_BYTES;
use crate::random::Random;
use crate::region::Region;
use crate::{outcomes, reader};

/// A region of every kind of graph, small ones, large ones, those of full size and the longest.
fn region(case: usize, random: &mut Random) -> Region {
    match case % 50 {
        0 => full_size::region(random),
        1 => full_size::longest_region(),
        2 => large::region(random),
        3..=9 => small::any_region(random),
        _ => graphs::any_size(GRAPHS[case % GRAPHS.len()], random),
    }
}

/// Regions with parents that are right, missing or wrong in every way, each with areas that are just long enough and with others.
pub fn good_files(tested: Tested<ParentsCall>, seed: u64, count: usize) -> Result<Tally, Difference> {
    let mut tally = Tally::of(&format!("{}, good files", tested.name));
    let mut random = Random::of(seed, "parents, good files");
    let (mut before, mut longest, mut grown) = ([0; 3], 0, [0; 2]);
    for case in 0..count {
        let mut region = region(case, &mut random);
        for filled in FILLED {
            fill(&mut region, filled, &mut random);
            let given = Given::of_region(&region);
            let made = compare_made(&mut tally, tested, &region, &given, &mut random)?;
            compare(&mut tally, tested, &given, given.near(&mut random), None)?;
            longest = longest.max(made.len());
            grown[0] += u64::from(made.len() > given.file.len());
            grown[1] += u64::from(made == given.file);
            let places = [0, 6, 10];
            let number = outcomes::check(&given.file);
            before.iter_mut().zip(places).for_each(|(seen, place)| *seen += u64::from(number == place));
        }
    }
    let seen = [
        ("check said 0 before", before[0]),
        ("6", before[1]),
        ("10", before[2]),
        ("longer afterwards", grown[0]),
        ("as it was", grown[1]),
        ("bytes of the longest", longest as u64),
    ];
    tally.with_all(&[0, 12, 15])?.with_seen(&seen)
}

/// One call that must write the region's file with its parents made as the request has it, one patient after the other. Check and
/// the independent reader accept that file, it is no longer than the header says, and from it the same file is made.
fn compare_made(
    tally: &mut Tally,
    tested: Tested<ParentsCall>,
    region: &Region,
    given: &Given,
    random: &mut Random,
) -> Result<Vec<u8>, Difference> {
    let areas = compare(tally, tested, given, given.exact(random), Some(0))?;
    let file = areas.counted().to_vec();
    let mut right = region.clone();
    set_parents(&mut right);
    let due = spelling::file_of(&right);
    let numbers = (boundary::check(&file), reader::read(&file).err());
    if file != due || numbers != (0, None) || file.len() > MOST_WRITTEN_BYTES {
        let answers = vec![
            ("the request, one patient after the other".to_string(), format!("\n{}", readable(&due))),
            (tested.name.to_string(), format!("\n{}", readable(&file))),
            ("check and the independent reader of what was written".to_string(), format!("{numbers:?}")),
        ];
        return Err(difference(tally, &given.file, answers));
    }
    let again = Given { made: Ok(file.clone()), file };
    compare(tally, tested, &again, again.exact(random), Some(0))?;
    Ok(again.file)
}

/// Every graph of one to five patients, each with parents of one kind.
pub fn all_graphs(tested: Tested<ParentsCall>, seed: u64, _: usize) -> Result<Tally, Difference> {
    let mut tally = Tally::of(&format!("{}, all graphs", tested.name));
    let mut random = Random::of(seed, "parents, all graphs");
    for patients in 1..=5 {
        for mut region in graphs::all_of(patients, &mut random) {
            fill(&mut region, random.pick(&FILLED), &mut random);
            compare_made(&mut tally, tested, &region, &Given::of_region(&region), &mut random)?;
        }
    }
    tally.with_all(&[0])
}

/// Files of every kind with output areas of every length up to past the need and result areas of 0 to 17 bytes; and such areas
/// for files that are refused.
pub fn all_lengths(tested: Tested<ParentsCall>, seed: u64, _: usize) -> Result<Tally, Difference> {
    let mut tally = Tally::of(&format!("{}, all lengths", tested.name));
    let mut random = Random::of(seed, "parents, all lengths");
    let mut longer = 0;
    // In a chain of 14 patients three parents have two digits, so that a file without any becomes longer.
    let kinds = GRAPHS.into_iter().zip(FILLED.into_iter().cycle());
    for (graph, filled) in kinds.chain([(Graph::Chain, Filled::NotAtAll)]) {
        let patients = if graph == Graph::Chain { 14 } else { random.between(1, 9) };
        let mut region = graphs::region(graph, patients, &mut random);
        fill(&mut region, filled, &mut random);
        let given = Given::of_region(&region);
        let needed = given.needed();
        longer += u64::from(needed > given.file.len());
        let outputs = (0..needed.min(300)).chain(needed.saturating_sub(300)..needed + 18);
        let mut lengths: Vec<[usize; 2]> = outputs.map(|output| [output, RESULT_BYTES]).collect();
        lengths.extend(with_all_results(&[0, needed - 1, needed, needed + 1, needed + 17, given.file.len()]));
        compare_lengths(&mut tally, tested, &given, &lengths, &mut random)?;
    }
    for question in 1..=9 {
        let given = Given::of(file_with(&[question], &mut random));
        let lengths = with_all_results(&[0, 1, 400, MOST_WRITTEN_BYTES]);
        compare_lengths(&mut tally, tested, &given, &lengths, &mut random)?;
    }
    tally.with_all(&[0, 1, 2, 3, 4, 5, 6, 7, 8, 9, 12, 15])?.with_seen(&[("longer than the file read", longer)])
}

/// A file with faults of these questions, 1 to 9, the smallest being its answer, with any parents.
pub fn file_with(questions: &[u64], random: &mut Random) -> Vec<u8> {
    if questions.contains(&1) {
        return faults::too_long(random);
    }
    if questions.contains(&2) {
        return layout_faults::file(random);
    }
    faults::file_with_any_parents(questions, random)
}

fn with_all_results(outputs: &[usize]) -> Vec<[usize; 2]> {
    (0..=17).flat_map(|result| outputs.iter().map(move |output| [*output, result])).collect()
}

fn compare_lengths(
    tally: &mut Tally,
    tested: Tested<ParentsCall>,
    given: &Given,
    lengths: &[[usize; 2]],
    random: &mut Random,
) -> Result<(), Difference> {
    for [output, result] in lengths {
        let areas = Outputs::patterned(*output, *result, random.number());
        compare(tally, tested, given, areas, None)?;
    }
    Ok(())
}
