//! Arrays made by hand: they bind the independent program itself.

use crate::areas::{ArrayLengths, Arrays};
use crate::compare::parents::by_hand::{FILLED, NEAR};
use crate::compare::read::{compare, difference, Given};
use crate::compare::report::{Difference, Tally};
use crate::compare::{paper, ReadCall, Tested};
use crate::files::examples;
use crate::files::trial;
use crate::generate::spelling::with_end;
use crate::lent::{numbers_in, NONE};
use crate::random::Random;

/// The numbers of the patients, of the tables, of the entries and of the result area.
type ByHand = [Vec<u64>; 4];

pub fn run(tested: Tested<ReadCall>, seed: u64, _: usize) -> Result<Tally, Difference> {
    let mut tally = Tally::of(&format!("{}, by hand", tested.name));
    let mut random = Random::of(seed, "read, by hand");
    for (file, due) in read() {
        let given = Given::of(file);
        let areas = Arrays::patterned(due.clone().map(|numbers| numbers.len() * 8), random.number());
        let after = compare(&mut tally, tested, &given, areas, Some(0))?;
        expect(&tally, tested, &given.file, &after, &due)?;
    }
    for (file, lengths, known) in lent() {
        let areas = Arrays::patterned(lengths, random.number());
        compare(&mut tally, tested, &Given::of(file), areas, Some(known))?;
    }
    for (_, number, file) in trial::all() {
        let given = Given::of(file);
        compare(&mut tally, tested, &given, given.exact(&mut random), Some(number))?;
    }
    for example in examples::made() {
        let known = if example.path.ends_with("wrong_parents.region") { 6 } else { 0 };
        let given = Given::of(example.bytes);
        compare(&mut tally, tested, &given, given.exact(&mut random), Some(known))?;
    }
    Ok(tally)
}

fn expect(
    tally: &Tally,
    tested: Tested<ReadCall>,
    file: &[u8],
    after: &Arrays,
    due: &ByHand,
) -> Result<(), Difference> {
    let given = after.all().map(numbers_in);
    if given == *due {
        return Ok(());
    }
    let answers = vec![("by hand".to_string(), format!("{due:?}")), (tested.name.to_string(), format!("{given:?}"))];
    Err(difference(tally, file, answers))
}

/// Files and their numbers, a patient or a table to a line.
fn read() -> Vec<(Vec<u8>, ByHand)> {
    vec![
        (paper::PRINTED.into(), printed()),
        (FILLED.into(), pairs()),
        (NEAR.into(), four_members()),
        (with_end(b"(region 1 0 64)\n(patient 15 16 - 15)\n"), one_patient()),
    ]
}

#[rustfmt::skip]
fn printed() -> ByHand {
    let patients = vec![
        0, 2, NONE, NONE,
        0, 2, 0, NONE,
    ];
    let tables = vec![
        1, 0, 0, 0, 0, 2,
        2, 0, 1, 0, 0, 4,
    ];
    [patients, tables, vec![3, 1, 0, 2, 1, NONE], vec![2, 2, 3, 6]]
}

/// Fixed beds, a parent 0, the highest clinic and the highest entry.
#[rustfmt::skip]
fn pairs() -> ByHand {
    let patients = vec![
        15, 1, NONE, NONE,
        0, 1, NONE, 0,
        2, 1, 0, NONE,
        0, 1, 1, NONE,
        2, 2, 2, 1,
        2, 1, 4, NONE,
    ];
    let tables = vec![
        2, 2, 5, 0, 0, 1,
        2, 0, 4, 0, 0, 2,
        2, 1, 3, 0, 0, 1,
        2, 4, 5, 0, 0, 2,
    ];
    [patients, tables, vec![3, 1, NONE, 1_000_000, 0, 9], vec![6, 4, 1, 6]]
}

/// Tables of four, three and two members, of one entry each.
fn four_members() -> ByHand {
    let parents = [NONE, NONE, NONE, 2, NONE, NONE, NONE, 3, 7, 3, 8, 10];
    let patients = parents.into_iter().flat_map(|parent| [0, 1, parent, NONE]).collect();
    let tables = [[4, 3, 7, 8, 10, 1], [3, 2, 3, 9, 0, 1], [2, 10, 11, 0, 0, 1]];
    [patients, tables.concat(), vec![5, NONE, 0], vec![12, 3, 64, 3]]
}

fn one_patient() -> ByHand {
    [vec![15, 16, NONE, 15], vec![], vec![], vec![1, 0, 64, 0]]
}

/// Files, the lengths of the four areas, and the number. The printed file asks for 64, 96, 48 and 32 bytes.
fn lent() -> Vec<(Vec<u8>, ArrayLengths, u64)> {
    let printed = || paper::PRINTED.as_bytes().to_vec();
    let wrong_sum = || paper::PRINTED.replace("5426", "5427").into_bytes();
    vec![
        (printed(), [64, 96, 48, 32], 0),
        (printed(), [65, 97, 49, 33], 0),
        (printed(), [1_024, 3_072, 32_768, 32], 0),
        (printed(), [63, 96, 48, 32], 12),
        (printed(), [64, 95, 48, 32], 12),
        (printed(), [64, 96, 47, 32], 12),
        (printed(), [64, 96, 48, 31], 12),
        (printed(), [32, 96, 48, 32], 12),
        (printed(), [64, 48, 48, 32], 12),
        (printed(), [64, 96, 40, 32], 12),
        (printed(), [64, 96, 48, 24], 12),
        (printed(), [0, 0, 0, 0], 12),
        (printed(), [0, 0, 0, 32], 12),
        (printed(), [96, 64, 48, 32], 12),
        (wrong_sum(), [64, 96, 48, 32], 4),
        (wrong_sum(), [0, 0, 0, 0], 4),
        (Vec::new(), [64, 96, 48, 32], 2),
        (Vec::new(), [0, 0, 0, 31], 2),
        (Vec::new(), [0, 0, 0, 0], 2),
    ]
}
