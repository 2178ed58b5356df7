//! Demand 3 by running: of two files that share a clinic, one sheet is the beginning of the other.

use crate::areas::{Areas, Lengths};
use crate::baseline;
use crate::compare::report::{areas_text, Difference, Tally, MANY};
use crate::compare::{SheetCall, Tested};
use crate::generate::pairs::{self, Pair, Sharing, Sizes, LARGE, SMALL};
use crate::generate::spelling;
use crate::outcomes::Outcomes;
use crate::plans::Row;
use crate::random::Random;
use crate::region::Region;

/// A sheet as a call left it: its number, the number that is due, and the rows.
struct Sheet {
    file: Vec<u8>,
    clinic: u64,
    number: u64,
    due: u64,
    rows: Vec<Row>,
    areas: Areas,
}

pub fn run(tested: Tested<SheetCall>, seed: u64, count: usize) -> Result<Vec<Tally>, Difference> {
    Ok(vec![apart(tested, seed, count)?, joined(tested, seed, count)?, fixed_otherwise(tested, seed, count)?])
}

/// Pairs that demand 3 speaks of: no table joins the clinic.
pub fn apart(tested: Tested<SheetCall>, seed: u64, count: usize) -> Result<Tally, Difference> {
    let tally = Tally::of(&format!("{}, pairs (demand 3)", tested.name));
    compare_apart(tally, tested, independent_number, SMALL, Random::of(seed, "sheet, pairs"), count)
}

/// Such pairs with too many plans to walk; the number that is due is the baseline's.
pub fn apart_large(tested: Tested<SheetCall>, seed: u64, count: usize) -> Result<Tally, Difference> {
    let tally = Tally::of(&format!("{}, large pairs (demand 3)", tested.name));
    compare_apart(tally, tested, baseline::calls::sheet, LARGE, Random::of(seed, "sheet, large pairs"), count)
}

fn independent_number(file: &[u8], clinic: u64, areas: &mut Areas) -> u64 {
    Outcomes::of(file).sheet(clinic, areas)
}

fn compare_apart(
    mut tally: Tally,
    tested: Tested<SheetCall>,
    due: SheetCall,
    sizes: Sizes,
    mut random: Random,
    count: usize,
) -> Result<Tally, Difference> {
    let (mut printed, mut telling, mut uneven) = (0, 0, 0);
    for _ in 0..count {
        let (one, other) = both_called(tested, due, &pairs::pair(sizes, Sharing::All, &mut random), &mut random);
        let both = one.number == 0 && other.number == 0;
        let has_rows = |sheet: &Sheet| sheet.number != 0 || !sheet.rows.is_empty();
        let agree = one.as_due() && other.as_due() && has_rows(&one) && has_rows(&other);
        if !agree || both && !same_beginning(&one, &other) {
            return Err(difference(&tally, &one, &other));
        }
        let (fewer, more) = (one.rows.len().min(other.rows.len()), one.rows.len().max(other.rows.len()));
        printed += u64::from(both);
        telling += u64::from(both && fewer > 1);
        uneven += u64::from(both && fewer < more);
        tally.count(one.number.max(other.number));
    }
    tally.remark(format!("({printed} pairs with two sheets, {telling} of several rows, {uneven} of unlike length)"));
    enough(tally, telling.min(uneven), "pairs that tell something")
}

/// Pairs with a joining table, of which demand 3 says nothing.
pub fn joined(tested: Tested<SheetCall>, seed: u64, count: usize) -> Result<Tally, Difference> {
    let tally = Tally::of(&format!("{}, joined pairs", tested.name));
    compare_unlike(tally, tested, Sharing::Joined, Random::of(seed, "sheet, joined pairs"), count)
}

/// Pairs whose fixed beds differ in the clinic: demand 3 says nothing of them either.
pub fn fixed_otherwise(tested: Tested<SheetCall>, seed: u64, count: usize) -> Result<Tally, Difference> {
    let tally = Tally::of(&format!("{}, otherwise fixed pairs", tested.name));
    compare_unlike(tally, tested, Sharing::FixedOtherwise, Random::of(seed, "sheet, otherwise fixed pairs"), count)
}

/// In some of these pairs the sheets must differ, or what is asked of a pair for demand 3 would not be needed.
fn compare_unlike(
    mut tally: Tally,
    tested: Tested<SheetCall>,
    sharing: Sharing,
    mut random: Random,
    count: usize,
) -> Result<Tally, Difference> {
    let mut differ = 0;
    for _ in 0..count {
        let pair = pairs::pair(SMALL, sharing, &mut random);
        let (one, other) = both_called(tested, independent_number, &pair, &mut random);
        if !one.as_due() || !other.as_due() {
            return Err(difference(&tally, &one, &other));
        }
        differ += u64::from(one.number.max(other.number) == 0 && !same_beginning(&one, &other));
        tally.count(one.number.max(other.number));
    }
    tally.remark(format!("(sheets differ in {differ} pairs)"));
    enough(tally, differ, "pairs with differing sheets")
}

/// The tally, if it has both numbers and such pairs came up. A run of few cases need not have them.
fn enough(tally: Tally, pairs: u64, what: &str) -> Result<Tally, Difference> {
    let tally = tally.with_all(&[0, 13])?;
    if pairs > 0 || tally.cases() < MANY {
        return Ok(tally);
    }
    let answers = vec![(what.to_string(), "none".to_string())];
    Err(Difference { kind: tally.kind().to_string(), file: Vec::new(), answers })
}

fn both_called(tested: Tested<SheetCall>, due: SheetCall, pair: &Pair, random: &mut Random) -> (Sheet, Sheet) {
    (called(tested, due, &pair.one, random), called(tested, due, &pair.other, random))
}

/// Calls sheet with areas that are long enough, of some length, filled with some pattern.
fn called(tested: Tested<SheetCall>, due: SheetCall, (region, clinic): &(Region, u64), random: &mut Random) -> Sheet {
    let file = spelling::file_of(region);
    let asked = Lengths::asked(region.m, region.patients.len());
    let lengths = Lengths { beds: asked.beds + random.below(9), costs: asked.costs + random.below(9), ..asked };
    let mut areas = Areas::patterned(lengths, random.number());
    let due = due(&file, *clinic, &mut areas.clone());
    let number = (tested.call)(&file, *clinic, &mut areas);
    let rows = areas.rows(region.patients_of(*clinic).len());
    Sheet { file, clinic: *clinic, number, due, rows, areas }
}

/// At every place below both counts the beds and the cost are the same.
fn same_beginning(one: &Sheet, other: &Sheet) -> bool {
    one.rows.iter().zip(&other.rows).all(|(row, other_row)| row == other_row)
}

impl Sheet {
    fn as_due(&self) -> bool {
        self.number == self.due
    }

    fn text(&self) -> String {
        format!("clinic {}, {} ({} is due){}", self.clinic, self.number, self.due, areas_text(&self.areas))
    }
}

fn difference(tally: &Tally, one: &Sheet, other: &Sheet) -> Difference {
    let answers = vec![
        ("the other file".to_string(), format!("\n{}", String::from_utf8_lossy(&other.file))),
        ("sheet of the file".to_string(), one.text()),
        ("sheet of the other file".to_string(), other.text()),
    ];
    Difference { kind: tally.kind().to_string(), file: one.file.clone(), answers }
}
