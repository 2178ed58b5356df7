//! What line's entry in Rattle hands back is that very part of the file, never a copy: its address is compared.

use crate::boundary::Part;
use crate::compare::report::{readable, Difference, Tally};
use crate::compare::{PartCall, Tested};
use crate::generate::{faulty, small, spelling, typed};
use crate::numbers;
use crate::outcomes::Lines;
use crate::random::Random;

/// One call of the entry, in memory blocks of exactly the lengths: its number, and the place and length of the part.
fn compare(
    tally: &mut Tally,
    tested: Tested<PartCall>,
    (file, lines): (&[u8], &Lines),
    typed: &[u8],
) -> Result<(), Difference> {
    let (number, start, size) = lines.entry(typed);
    let (block, text): (Box<[u8]>, Box<[u8]>) = (file.into(), typed.into());
    let begin = block.as_ptr() as usize;
    let expected = Part { address: begin + start as usize, length: size as usize };
    let (given_number, given) = (tested.call)(&block, &text);
    if given_number == number && given == Some(expected) {
        tally.count(number);
        return Ok(());
    }
    let answers = vec![
        ("typed".to_string(), readable(typed)),
        ("the file lies at".to_string(), begin.to_string()),
        ("independent program".to_string(), format!("{number}, {expected:?}")),
        (tested.name.to_string(), format!("{given_number}, {given:?}")),
    ];
    Err(Difference { kind: tally.kind().to_string(), file: file.to_vec(), answers })
}

/// Small regions: each table by its own members, lists beside them, and texts that are no list.
pub fn regions(tested: Tested<PartCall>, seed: u64, count: usize) -> Result<Tally, Difference> {
    let mut tally = Tally::of(&format!("{}, regions", tested.name));
    let mut random = Random::of(seed, "line's part, regions");
    for _ in 0..count {
        let region = small::any_region(&mut random);
        let file = spelling::file_of(&region);
        let lines = Lines::of(&file);
        for table in &region.tables {
            compare(&mut tally, tested, (&file, &lines), &typed::text_of(&table.members))?;
        }
        for list in typed::beside(&[0], region.patients.len() as u64, &mut random) {
            compare(&mut tally, tested, (&file, &lines), &typed::text_of(&list))?;
        }
        compare(&mut tally, tested, (&file, &lines), &typed::random_text(&mut random))?;
    }
    tally.with_all(&[0, 21])
}

/// Files that are refused, with any text: the empty part at the file's end.
pub fn faulty_files(tested: Tested<PartCall>, seed: u64, count: usize) -> Result<Tally, Difference> {
    let mut tally = Tally::of(&format!("{}, faulty files", tested.name));
    let mut random = Random::of(seed, "line's part, faulty files");
    for case in 0..count {
        let file = faulty::file(case, &mut random);
        let typed = if random.chance(50) { b"(0)".to_vec() } else { typed::random_text(&mut random) };
        compare(&mut tally, tested, (&file, &Lines::of(&file)), &typed)?;
    }
    tally.with_all(numbers::OF_FILES)
}
