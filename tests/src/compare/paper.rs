//! Document 01's own files to try, with the answers that it gives, and the trial files: they bind
//! the independent program itself, and how files are spelled here.

use crate::areas::{Area, Areas, Lengths};
use crate::compare::report::{Difference, Tally};
use crate::compare::{check, every_call, line, list, price, sheet, write, Calls};
use crate::files::describe::{chain, flat_table, one_patient, paper, region, root, table};
use crate::files::trial;
use crate::generate::spelling::file_of;
use crate::lent::numbers_in;
use crate::limits::HIGHEST_ENTRY;
use crate::outcomes::{Lines, Outcomes};
use crate::plans::{self, Row};
use crate::printed;
use crate::random::Random;
use crate::region::Region;

/// The file that the paper prints in full.
pub const PRINTED: &str = "(region 2 2 3)
(patient 0 2 - -)
(patient 0 2 0 -)
(cost (0) (3 1))
(cost (0 1) (0 2 1 -))
(end 5426)
";

type Rows = &'static [(u64, &'static [u8])];

/// What the printing program prints for it.
const OUTPUT: &str = "(list 3)
(row 2 (1 0))
(row 3 (0 0))
(row 5 (0 1))
(sheet 0 3)
(row 2 (1 0))
(row 3 (0 0))
(row 5 (0 1))
";

pub fn run(calls: Calls) -> Result<Tally, Difference> {
    let mut tally = Tally::of(&format!("{}, the paper's files", calls.name));
    let mut random = Random::of(1, "the paper's files");
    for (file, number) in numbered() {
        check::compare(&mut tally, calls.check, &file, Some(number))?;
        every_call::compare(&mut tally, calls, &file, &mut random)?;
    }
    for (file, list, sheet) in listed().into_iter().chain(staying()) {
        let outcomes = every_call::compare(&mut tally, calls, &file, &mut random)?;
        expect(&file, same(outcomes.rows(), list), list, outcomes.rows())?;
        let region = outcomes.region().expect("an accepted file");
        let rows = plans::sheet(region, outcomes.rows(), 0);
        expect(&file, same(&rows, sheet), sheet, &rows)?;
        let areas = Areas::patterned(Lengths::asked(region.m, region.patients.len()), random.number());
        list::compare(&mut tally, calls.list, (&file, &outcomes), areas.clone())?;
        sheet::compare(&mut tally, calls.sheet, (&file, &outcomes), 0, areas)?;
        write::compare_back(&mut tally, calls.write, &file, &mut random)?;
    }
    for (plan, number, numbers) in priced() {
        let file = file_of(&paper_with([Some(0), None]));
        let outcomes = Outcomes::of(&file);
        let mut result = Area::patterned(16, random.number());
        price::compare(&mut tally, calls.price, (&file, &outcomes), plan, result.clone())?;
        let given = (outcomes.price(plan, result.lent()), numbers_in(&result));
        expect(&file, given == (number, numbers.to_vec()), (number, numbers), &given)?;
    }
    look_up(&mut tally, calls, &mut random)?;
    let spelled = file_of(&paper());
    expect(PRINTED.as_bytes(), spelled == PRINTED.as_bytes(), PRINTED, String::from_utf8_lossy(&spelled))?;
    let printed = printed::text(&Outcomes::of(PRINTED.as_bytes()));
    expect(PRINTED.as_bytes(), printed == OUTPUT, OUTPUT, &printed)?;
    Ok(tally)
}

/// The printed file's lines.
fn look_up(tally: &mut Tally, calls: Calls, random: &mut Random) -> Result<(), Difference> {
    let file = PRINTED.as_bytes();
    let lines = Lines::of(file);
    for (typed, number, part) in looked_up() {
        let mut result = Area::patterned(16, random.number());
        line::compare(tally, calls.line, (file, &lines), typed.as_bytes(), result.clone())?;
        let given = (lines.line(typed.as_bytes(), result.lent()), numbers_in(&result));
        expect(file, given == (number, part.to_vec()), (typed, number, part), &given)?;
    }
    Ok(())
}

/// All of them.
pub fn files() -> Vec<Vec<u8>> {
    let numbered = numbered().into_iter().map(|(file, _)| file);
    numbered.chain(accepted()).collect()
}

/// Those that have a list, though it may be empty.
pub fn accepted() -> Vec<Vec<u8>> {
    listed().into_iter().chain(staying()).map(|(file, ..)| file).collect()
}

fn same(rows: &[Row], paper: Rows) -> bool {
    rows.iter().map(|row| (row.cost, &row.beds[..])).eq(paper.iter().copied())
}

fn expect(
    file: &[u8],
    agrees: bool,
    paper: impl std::fmt::Debug,
    answers: impl std::fmt::Debug,
) -> Result<(), Difference> {
    if agrees {
        return Ok(());
    }
    let answers = vec![
        ("the paper".to_string(), format!("{paper:?}")),
        ("independent program".to_string(), format!("{answers:?}")),
    ];
    Err(Difference { kind: "the paper's files".to_string(), file: file.to_vec(), answers })
}

/// Files with check's number: the trial files, which have most of the paper's, and the others.
fn numbered() -> Vec<(Vec<u8>, u64)> {
    let priced = |price: u64| file_of(&one_patient([flat_table(&[0], price, 1)]));
    let one_above_the_other = region(1, chain(3, 1), [table(&[1, 2], "0")]);
    let others = [(file_of(&one_above_the_other), 0), (priced(HIGHEST_ENTRY), 0), (priced(HIGHEST_ENTRY + 1), 9)];
    let trials = trial::all().into_iter().map(|(_, number, file)| (file, number));
    trials.chain(others).collect()
}

/// Accepted files with their lists and their sheets of clinic 0.
fn listed() -> Vec<(Vec<u8>, Rows, Rows)> {
    let two_clinics =
        |m: u64, second: &str| file_of(&region(m, [root(0, 2), root(1, 2)], [table(&[0], "1 0"), table(&[1], second)]));
    let printed: Rows = &[(2, &[1, 0]), (3, &[0, 0]), (5, &[0, 1])];
    let ties: Rows = &[(5, &[0]), (5, &[1])];
    let free: Rows = &[(0, &[0, 0]), (0, &[0, 1]), (0, &[1, 0])];
    let sheet: Rows = &[(0, &[1]), (1, &[0])];
    vec![
        (PRINTED.as_bytes().to_vec(), printed, printed),
        (file_of(&region(64, [root(0, 1)], [])), &[(0, &[0])], &[(0, &[0])]),
        (file_of(&region(2, [root(0, 3)], [table(&[0], "5 5 5")])), ties, ties),
        (file_of(&region(1, [root(0, 2)], [table(&[0], "- -")])), &[], &[]),
        (file_of(&region(3, [root(0, 2), root(0, 2)], [])), free, free),
        (two_clinics(3, "0 5"), &[(0, &[1, 0]), (1, &[0, 0]), (5, &[1, 1])], sheet),
        (two_clinics(3, "0 0"), &[(0, &[1, 0]), (0, &[1, 1]), (1, &[0, 0])], sheet),
        (two_clinics(2, "0 0"), &[(0, &[1, 0]), (0, &[1, 1])], &[(0, &[1])]),
    ]
}

/// The paper's region, where these beds are fixed.
fn paper_with(fixed: [Option<u64>; 2]) -> Region {
    let mut region = paper();
    region.patients.iter_mut().zip(fixed).for_each(|(patient, bed)| patient.fixed = bed);
    region
}

/// Files with fixed beds, with their lists and their sheets of clinic 0. In the fourth the two beds are forbidden together.
fn staying() -> Vec<(Vec<u8>, Rows, Rows)> {
    let dear: Rows = &[(3, &[0, 0]), (5, &[0, 1])];
    let no_table: Rows = &[(0, &[1, 0]), (0, &[1, 1])];
    let with = |first, second, rows: Rows| (file_of(&paper_with([first, second])), rows, rows);
    vec![
        with(Some(0), None, dear),
        with(None, Some(1), &dear[1..]),
        with(Some(0), Some(0), &dear[..1]),
        with(Some(1), Some(1), &[]),
        (file_of(&region(9, [root(0, 3).staying_in(1), root(0, 2)], [])), no_table, no_table),
    ]
}

/// Members as typed, of the printed file: line's number, where the line starts and its length, counted by hand. The file has 102 bytes.
fn looked_up() -> [(&'static str, u64, [u64; 2]); 12] {
    [
        ("(0)", 0, [51, 16]),
        ("(0 1)", 0, [68, 22]),
        ("(1)", 0, [102, 0]),
        ("(1 0)", 0, [102, 0]),
        ("(0 1 2 3 4)", 0, [102, 0]),
        ("(9999999)", 0, [102, 0]),
        ("(3 1)", 0, [102, 0]),
        ("0 1", 21, [0, 0]),
        ("(0  1)", 21, [0, 0]),
        ("(0 01)", 21, [0, 0]),
        ("(0 1)\n", 21, [0, 0]),
        ("(0 2 1 -)", 21, [0, 0]),
    ]
}

/// Plans of the paper's region with patient 0 in bed 0: price's number, and the numbers of the result area.
fn priced() -> [(&'static [u8], u64, [u64; 2]); 3] {
    [(&[0, 1], 0, [1, 5]), (&[1, 0], 0, [0, 0]), (&[2, 0], 14, [0, 0])]
}
