//! What join writes where it gives 0: the file of the region that two make, which check accepts; areas of every length.

use crate::areas::Outputs;
use crate::boundary;
use crate::compare::join::{compare, difference, written, Files};
use crate::compare::report::{readable, Difference, Tally};
use crate::compare::{JoinCall, Tested};
use crate::generate::joins::{self, Pair};
use crate::generate::{faulty, small, spelling};
use crate::joining::{NEITHER, RESULT_BYTES};
use crate::limits::MOST_WRITTEN_BYTES;
use crate::random::Random;
use crate::region::Region;

/// Small regions of every kind, large ones, the most of everything and the longest file, each pair with areas that are just long enough and others.
pub fn good_pairs(tested: Tested<JoinCall>, seed: u64, count: usize) -> Result<Tally, Difference> {
    let mut tally = Tally::of(&format!("{}, good pairs", tested.name));
    let mut random = Random::of(seed, "join, good pairs");
    let mut longest = 0;
    for case in 0..count {
        let pair = match case % 100 {
            0 => joins::longest(),
            1 => joins::halves(),
            2 | 3 => joins::large(&mut random),
            _ => joins::small(case, &mut random),
        };
        let files = Files::of_pair(&pair);
        longest = longest.max(files.needed());
        compare_made(&mut tally, tested, &pair, &files, &mut random)?;
        compare(&mut tally, tested, &files, files.near(&mut random), None)?;
    }
    tally.remark(format!("(the longest file has {longest} bytes)"));
    tally.with_all(&[0, 12, 15])
}

/// One call that must write the file of the region that the two make. It is no longer than the header says, and check accepts it.
fn compare_made(
    tally: &mut Tally,
    tested: Tested<JoinCall>,
    (first, second): &Pair,
    files: &Files,
    random: &mut Random,
) -> Result<(), Difference> {
    let given = compare(tally, tested, files, files.exact(random), Some((0, NEITHER)))?;
    let (file, due) = (given.counted(), spelling::file_of(&joins::together(first, second)));
    let number = boundary::check(file);
    if file == due && number == 0 && file.len() <= MOST_WRITTEN_BYTES {
        return Ok(());
    }
    let answers = vec![
        ("known from how the files were made".to_string(), format!("\n{}", readable(&due))),
        (tested.name.to_string(), format!("\n{}", readable(file))),
        ("check of what was written".to_string(), number.to_string()),
    ];
    Err(difference(tally, files, answers))
}

/// Pairs of every kind with output areas of every length up to past the need and result areas of 0 to 20 bytes; and such areas
/// for pairs that are refused.
pub fn all_lengths(tested: Tested<JoinCall>, seed: u64, _: usize) -> Result<Tally, Difference> {
    let mut tally = Tally::of(&format!("{}, all lengths", tested.name));
    let mut random = Random::of(seed, "join, all lengths");
    for case in 0..small::KINDS.len() {
        let files = Files::of_pair(&joins::small(case, &mut random));
        let needed = files.needed();
        let outputs = (0..needed.min(300)).chain(needed.saturating_sub(300)..needed + 18);
        let mut lengths: Vec<[usize; 2]> = outputs.map(|output| [output, RESULT_BYTES]).collect();
        lengths.extend(with_all_results(&[0, needed - 1, needed, needed + 1, needed + 17]));
        compare_lengths(&mut tally, tested, &files, &lengths, &mut random)?;
    }
    for case in 0..12 {
        for files in refused(case, &mut random) {
            let lengths = with_all_results(&[0, 1, 400, MOST_WRITTEN_BYTES]);
            compare_lengths(&mut tally, tested, &files, &lengths, &mut random)?;
        }
    }
    tally.with_all(&[0, 1, 2, 3, 4, 5, 6, 7, 8, 9, 10, 12, 15, 16, 17])
}

fn with_all_results(outputs: &[usize]) -> Vec<[usize; 2]> {
    (0..=20).flat_map(|result| outputs.iter().map(move |output| [*output, result])).collect()
}

fn compare_lengths(
    tally: &mut Tally,
    tested: Tested<JoinCall>,
    files: &Files,
    lengths: &[[usize; 2]],
    random: &mut Random,
) -> Result<(), Difference> {
    for [output, result] in lengths {
        let areas = Outputs::patterned(*output, *result, random.number());
        compare(tally, tested, files, areas, None)?;
    }
    Ok(())
}

/// A faulty file before and behind a good one, files with a clinic in common, and files that are too large together.
fn refused(case: usize, random: &mut Random) -> [Files; 4] {
    let (first, second) = joins::small(case, random);
    let [first, second] = [first, second].map(|region| spelling::file_of(&region));
    [
        Files::of(faulty::file(case, random), second),
        Files::of(first.clone(), faulty::file(case, random)),
        Files::of(first.clone(), first),
        Files::of_pair(&joins::too_large(random)),
    ]
}

/// Three regions joined in both groupings: the same file, which is that of all three.
pub fn threes(tested: Tested<JoinCall>, seed: u64, count: usize) -> Result<Tally, Difference> {
    let mut tally = Tally::of(&format!("{}, three regions", tested.name));
    let mut random = Random::of(seed, "join, three regions");
    for case in 0..count {
        let regions: [Region; 3] = joins::small_regions(case, &mut random);
        let due = spelling::file_of(&joins::together(&joins::together(&regions[0], &regions[1]), &regions[2]));
        let [a, b, c] = regions.map(|region| spelling::file_of(&region));
        let mut joined = |first: &[u8], second: &[u8]| {
            written(&tally, tested, &Files::of(first.to_vec(), second.to_vec()), &mut random)
        };
        let (two_first, two_last) = (joined(&a, &b)?, joined(&b, &c)?);
        let (left, right) = (joined(&two_first, &c)?, joined(&a, &two_last)?);
        if left != due || right != due {
            let answers = vec![
                ("known from how the files were made".to_string(), format!("\n{}", readable(&due))),
                ("the first two first".to_string(), format!("\n{}", readable(&left))),
                ("the last two first".to_string(), format!("\n{}", readable(&right))),
            ];
            return Err(difference(&tally, &Files::of(a, b), answers));
        }
        tally.count(0);
    }
    tally.with_all(&[0])
}
