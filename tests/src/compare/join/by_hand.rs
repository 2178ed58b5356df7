//! Files joined by hand: they bind the independent program itself.

use crate::areas::Outputs;
use crate::compare::join::{compare, difference, lists, written, Files, Known};
use crate::compare::report::{readable, Difference, Tally};
use crate::compare::{paper, JoinCall, Tested};
use crate::files::examples;
use crate::joining::{FIRST, NEITHER, SECOND};
use crate::random::Random;

/// To be joined with the paper's file. Its list is 0 (1 1), 1 (0 1).
const OTHER: &str = "(region 2 1 2)
(patient 1 2 - -)
(patient 2 3 0 1)
(cost (0 1) (9 1 - 9 0 9))
(end 4679)
";

/// Behind the paper's.
const BEHIND: &str = "(region 4 3 2)
(patient 0 2 - -)
(patient 0 2 0 -)
(patient 1 2 - -)
(patient 2 3 2 1)
(cost (0) (3 1))
(cost (0 1) (0 2 1 -))
(cost (2 3) (9 1 - 9 0 9))
(end 9133)
";

/// Before the paper's.
const BEFORE: &str = "(region 4 3 2)
(patient 1 2 - -)
(patient 2 3 0 1)
(patient 0 2 - -)
(patient 0 2 2 -)
(cost (0 1) (9 1 - 9 0 9))
(cost (2) (3 1))
(cost (2 3) (0 2 1 -))
(end 9135)
";

/// A joined file's list.
type Rows = &'static [(u64, &'static [u8])];

/// The paper's list is 2 (1 0), 3 (0 0), 5 (0 1): two pairs have total 3, and the first file's beds decide.
const ROWS_BEHIND: Rows = &[(2, &[1, 0, 1, 1]), (3, &[0, 0, 1, 1])];
const ROWS_BEFORE: Rows = &[(2, &[1, 1, 1, 0]), (3, &[0, 1, 1, 0])];

/// Of the examples, as `examples/README.md` has it.
const ROWS_OF_EXAMPLES: Rows =
    &[(3, &[1, 0, 0, 0, 1]), (4, &[0, 0, 0, 0, 1]), (4, &[1, 0, 0, 1, 1]), (5, &[0, 0, 0, 1, 1])];

pub fn run(tested: Tested<JoinCall>, seed: u64, _: usize) -> Result<Tally, Difference> {
    let mut tally = Tally::of(&format!("{}, by hand", tested.name));
    let mut random = Random::of(seed, "join, by hand");
    for (files, due, rows) in joined() {
        compare(&mut tally, tested, &files, files.exact(&mut random), Some((0, NEITHER)))?;
        let file = written(&tally, tested, &files, &mut random)?;
        let listed = lists::listed(&file).unwrap_or_default();
        let as_by_hand = listed.iter().map(|row| (row.cost, &row.beds[..])).eq(rows.iter().copied());
        if file != due || !as_by_hand {
            let due = ("by hand".to_string(), format!("\n{}{rows:?}", readable(&due)));
            let given = (tested.name.to_string(), format!("\n{}{listed:?}", readable(&file)));
            return Err(difference(&tally, &files, vec![due, given]));
        }
    }
    for (first, second, [output, result], known) in refused() {
        let areas = Outputs::patterned(output, result, random.number());
        compare(&mut tally, tested, &Files::of(first.into(), second.into()), areas, Some(known))?;
    }
    Ok(tally)
}

/// Files, their joined file, and its list.
fn joined() -> [(Files, Vec<u8>, Rows); 3] {
    let [north, south, both] = ["north", "south", "north_and_south"].map(examples::file);
    let (paper, other) = (paper::PRINTED, OTHER);
    [
        (Files::of(paper.into(), other.into()), BEHIND.into(), ROWS_BEHIND),
        (Files::of(other.into(), paper.into()), BEFORE.into(), ROWS_BEFORE),
        (Files::of(north, south), both, ROWS_OF_EXAMPLES),
    ]
}

type Refused = (&'static str, &'static str, [usize; 2], Known);

/// Files, the lengths of the output area and of the result area, and the answer.
fn refused() -> Vec<Refused> {
    let good = paper::PRINTED;
    vec![
        ("", good, [200, 16], (2, FIRST)),
        (good, "", [200, 16], (2, SECOND)),
        ("", "", [200, 16], (2, FIRST)),
        (good, "", [0, 15], (2, SECOND)),
        (good, good, [200, 16], (16, NEITHER)),
        (good, good, [0, 15], (12, NEITHER)),
        (good, OTHER, [164, 16], (15, NEITHER)),
        (good, OTHER, [164, 15], (12, NEITHER)),
        (OTHER, BEHIND, [200, 16], (16, NEITHER)),
    ]
}
