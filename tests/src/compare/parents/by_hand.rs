//! Parents made by hand: they bind the independent program itself.

use crate::areas::{Areas, Lengths, Outputs};
use crate::compare::parents::{compare, difference, written, Given};
use crate::compare::report::{readable, Difference, Tally};
use crate::compare::{paper, ParentsCall, Tested, LIBRARY};
use crate::files::{examples, trial};
use crate::random::Random;
use crate::reader;

/// Without any parents. From the last: 5 is next to 2 and 4, so its parent is 4, and 2 and 4 become neighbours; 4 is next to 0 and now to
/// 2, so its parent is 2, and 0 and 2 become neighbours; 3 is next to 1; 2 is now next to 0; 1 and 0 have no earlier neighbours.
const UNFILLED: &str = "(region 6 4 1)
(patient 15 1 - -)
(patient 0 1 - 0)
(patient 2 1 - -)
(patient 0 1 - -)
(patient 2 2 - 1)
(patient 2 1 - -)
(cost (2 5) (3))
(cost (0 4) (1 -))
(cost (1 3) (1000000))
(cost (4 5) (0 9))
(end 12251)
";

pub const FILLED: &str = "(region 6 4 1)
(patient 15 1 - -)
(patient 0 1 - 0)
(patient 2 1 0 -)
(patient 0 1 1 -)
(patient 2 2 2 1)
(patient 2 1 4 -)
(cost (2 5) (3))
(cost (0 4) (1 -))
(cost (1 3) (1000000))
(cost (4 5) (0 9))
(end 12270)
";

/// Tables of four, three and two members; every parent is 9999999. From the last: 11 is next to 10, 10 to 3, 7 and 8, 9 to 2 and 3, 8 to
/// 3 and 7, 7 to 3, 3 to 2.
const FAR: &str = "(region 12 3 64)
(patient 0 1 9999999 -)
(patient 0 1 9999999 -)
(patient 0 1 9999999 -)
(patient 0 1 9999999 -)
(patient 0 1 9999999 -)
(patient 0 1 9999999 -)
(patient 0 1 9999999 -)
(patient 0 1 9999999 -)
(patient 0 1 9999999 -)
(patient 0 1 9999999 -)
(patient 0 1 9999999 -)
(patient 0 1 9999999 -)
(cost (3 7 8 10) (5))
(cost (2 3 9) (-))
(cost (10 11) (0))
(end 22515)
";

pub const NEAR: &str = "(region 12 3 64)
(patient 0 1 - -)
(patient 0 1 - -)
(patient 0 1 - -)
(patient 0 1 2 -)
(patient 0 1 - -)
(patient 0 1 - -)
(patient 0 1 - -)
(patient 0 1 3 -)
(patient 0 1 7 -)
(patient 0 1 3 -)
(patient 0 1 8 -)
(patient 0 1 10 -)
(cost (3 7 8 10) (5))
(cost (2 3 9) (-))
(cost (10 11) (0))
(end 18357)
";

/// An example's list, as `examples/README.md` has it.
const ROWS: [(u64, &[u8]); 4] =
    [(3, &[0, 0, 1, 0, 2, 0]), (3, &[0, 0, 1, 1, 2, 0]), (4, &[0, 0, 0, 0, 2, 0]), (4, &[0, 0, 0, 1, 2, 0])];

pub fn run(tested: Tested<ParentsCall>, seed: u64, _: usize) -> Result<Tally, Difference> {
    let mut tally = Tally::of(&format!("{}, by hand", tested.name));
    let mut random = Random::of(seed, "parents, by hand");
    for (file, due) in made() {
        let given = Given::of(file);
        let areas = compare(&mut tally, tested, &given, given.exact(&mut random), Some(0))?;
        expect(&tally, tested, &given.file, areas.counted(), &due)?;
    }
    for (file, [output, result], known) in refused() {
        let areas = Outputs::patterned(output, result, random.number());
        compare(&mut tally, tested, &Given::of(file), areas, Some(known))?;
    }
    for (name, number, file) in trial::all() {
        let known = match name {
            "parent_itself" | "parent_above" | "parent_far_above" | "siblings" => 0,
            _ => number,
        };
        let given = Given::of(file);
        compare(&mut tally, tested, &given, given.exact(&mut random), Some(known))?;
    }
    compare_example(&tally, tested, &mut random)?;
    Ok(tally)
}

fn expect(tally: &Tally, tested: Tested<ParentsCall>, file: &[u8], given: &[u8], due: &[u8]) -> Result<(), Difference> {
    if given == due {
        return Ok(());
    }
    let answers = vec![
        ("by hand".to_string(), format!("\n{}", readable(due))),
        (tested.name.to_string(), format!("\n{}", readable(given))),
    ];
    Err(difference(tally, file, answers))
}

/// The example's file with its parents made has the list that was worked out by hand.
fn compare_example(tally: &Tally, tested: Tested<ParentsCall>, random: &mut Random) -> Result<(), Difference> {
    let file = examples::file("wrong_parents");
    let made = written(tally, tested, &file, random)?;
    let mut areas = Areas::patterned(Lengths::asked(4, 6), random.number());
    let number = (LIBRARY.list.call)(&made, &mut areas);
    let rows = areas.rows(6);
    if number == 0 && rows.iter().map(|row| (row.cost, &row.beds[..])).eq(ROWS) {
        return Ok(());
    }
    let answers = vec![
        ("by hand".to_string(), format!("{ROWS:?}")),
        (format!("list of what {} writes", tested.name), format!("{number}, {rows:?}")),
        ("independent reader of it".to_string(), format!("{:?}", reader::read(&made).err())),
    ];
    Err(difference(tally, &file, answers))
}

/// Files, and the same with parents made.
fn made() -> Vec<(Vec<u8>, Vec<u8>)> {
    let mut pairs = vec![
        (UNFILLED.into(), FILLED.into()),
        (FILLED.into(), FILLED.into()),
        (FAR.into(), NEAR.into()),
        (examples::file("wrong_parents"), examples::file("parents_made")),
    ];
    // Each of these has its parents as they are made.
    let right = ["small_ward", "ties", "stays_put", "north", "south", "north_and_south", "full_size", "one_tree"];
    pairs.extend(right.map(|name| (examples::file(name), examples::file(name))));
    pairs.push((paper::PRINTED.into(), paper::PRINTED.into()));
    pairs
}

/// Files, the lengths of the output area and of the result area, and the number.
fn refused() -> Vec<(Vec<u8>, [usize; 2], u64)> {
    let file = |text: &str| text.as_bytes().to_vec();
    vec![
        (Vec::new(), [200, 8], 2),
        (Vec::new(), [0, 0], 2),
        (file(UNFILLED), [FILLED.len() - 1, 8], 15),
        (file(UNFILLED), [FILLED.len() - 1, 7], 12),
        (file(UNFILLED), [FILLED.len(), 7], 12),
        (file(UNFILLED), [FILLED.len(), 0], 12),
        (file(FAR), [NEAR.len() - 1, 8], 15),
        (file(&FAR.replace("22515", "22516")), [400, 8], 4),
        (file(&FAR.replace("(region 12", "(region 13")), [400, 8], 3),
        (file(&FAR[..FAR.len() - 1]), [400, 8], 2),
        (file(&FAR.replace("22515", "22516")), [0, 0], 4),
    ]
}
