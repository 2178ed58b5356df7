//! Line in every byte of the result area: each table by its own members, lists that find nothing, texts that are no list,
//! refused files, result areas of every length.

use crate::areas::Area;
use crate::compare::report::{area_text, readable, Difference, Tally};
use crate::compare::{paper, LineCall, Tested};
use crate::generate::{faulty, full_size, large, small, spelling, typed};
use crate::lent::numbers_in;
use crate::numbers;
use crate::outcomes::Lines;
use crate::random::Random;
use crate::region::{Region, Table};

/// What question 12 asks for.
const ASKED: usize = 16;

/// How long the longest typed texts are, and lengths at which a count of 16 bits wraps.
const LONG: [usize; 6] = [1_000, 32_768, 65_535, 65_536, 65_541, 100_000];

pub fn run(tested: Tested<LineCall>, seed: u64, count: usize) -> Result<Vec<Tally>, Difference> {
    Ok(vec![
        own_members(tested, seed, count)?,
        repeated_tables(tested, seed, count / 2)?,
        other_members(tested, seed, count)?,
        spoiled_texts(tested, seed, count / 4)?,
        changed_texts(tested, seed, count)?,
        long_texts(tested, seed, count / 40)?,
        faulty_files(tested, seed, count)?,
        all_lengths(tested, seed, count / 40)?,
    ])
}

/// One call, compared in its number and in every byte of the result area; the file and the typed text stay as they were.
/// Gives the result area.
pub fn compare(
    tally: &mut Tally,
    tested: Tested<LineCall>,
    (file, lines): (&[u8], &Lines),
    typed: &[u8],
    result: Area,
) -> Result<Area, Difference> {
    let (mut expected, mut given) = (result.clone(), result);
    let (lent_file, lent_typed) = (file.to_vec(), typed.to_vec());
    let expected_number = lines.line(typed, expected.lent());
    let number = (tested.call)(&lent_file, &lent_typed, given.lent());
    let unchanged = lent_file == file && lent_typed == typed;
    if number == expected_number && given == expected && unchanged {
        tally.count(number);
        return Ok(given);
    }
    let mut answers = vec![
        ("typed".to_string(), readable(typed)),
        ("independent program".to_string(), format!("{expected_number}, result {}", area_text(&expected))),
        (tested.name.to_string(), format!("{number}, result {}", area_text(&given))),
    ];
    if !unchanged {
        answers.push(("after the call".to_string(), "the file or the typed text is another".to_string()));
    }
    Err(Difference { kind: tally.kind().to_string(), file: file.to_vec(), answers })
}

/// One call with a result area that mostly has just the bytes that are asked for.
fn compare_near(
    tally: &mut Tally,
    tested: Tested<LineCall>,
    of_file: (&[u8], &Lines),
    typed: &[u8],
    random: &mut Random,
) -> Result<(), Difference> {
    let length = if random.chance(90) { ASKED } else { random.below(40) };
    compare(tally, tested, of_file, typed, Area::patterned(length, random.number())).map(drop)
}

/// The part of the file that a result area tells; none where it is too short or tells another.
pub fn part_of<'a>(file: &'a [u8], result: &Area) -> Option<&'a [u8]> {
    let [start, length] = numbers_in(result)[..] else { return None };
    file.get(start as usize..)?.get(..length as usize)
}

/// One call that must hand back this line, known from how the file was made.
fn compare_found(
    tally: &mut Tally,
    tested: Tested<LineCall>,
    (file, lines): (&[u8], &Lines),
    table: &Table,
    random: &mut Random,
) -> Result<(), Difference> {
    let result = Area::patterned(ASKED, random.number());
    let typed = typed::text_of(&table.members);
    let given = compare(tally, tested, (file, lines), &typed, result)?;
    let line = spelling::table_line(table);
    if part_of(file, &given) == Some(line.trim_end().as_bytes()) {
        return Ok(());
    }
    let answers = vec![
        ("known from how the file was made".to_string(), line),
        (tested.name.to_string(), format!("result {}", area_text(&given))),
    ];
    Err(Difference { kind: tally.kind().to_string(), file: file.to_vec(), answers })
}

/// One call that must give 21, known from how the text was made.
fn expect_refused(
    tally: &mut Tally,
    tested: Tested<LineCall>,
    (file, lines): (&[u8], &Lines),
    typed: &[u8],
    random: &mut Random,
) -> Result<(), Difference> {
    let mut result = Area::patterned(ASKED, random.number());
    compare(tally, tested, (file, lines), typed, result.clone())?;
    let number = lines.line(typed, result.lent());
    if number == 21 {
        return Ok(());
    }
    let answers = vec![
        ("known from how the text was made".to_string(), format!("21, typed {}", readable(typed))),
        ("all".to_string(), number.to_string()),
    ];
    Err(Difference { kind: tally.kind().to_string(), file: file.to_vec(), answers })
}

/// Small regions of every kind, some large ones and some of full size.
fn region(case: usize, random: &mut Random) -> Region {
    match case % 300 {
        50 => full_size::region(random),
        150 => full_size::longest_with_own_last_table(),
        250 => large::region(random),
        small => small::region(small::KINDS[small % small::KINDS.len()], random),
    }
}

/// Each table of a region by its own members: the first that has them.
fn compare_each(
    tally: &mut Tally,
    tested: Tested<LineCall>,
    region: &Region,
    random: &mut Random,
) -> Result<(), Difference> {
    let file = spelling::file_of(region);
    let lines = Lines::of(&file);
    for table in &region.tables {
        let first = region.tables.iter().find(|other| other.members == table.members).unwrap_or(table);
        compare_found(tally, tested, (&file, &lines), first, random)?;
    }
    Ok(())
}

pub fn own_members(tested: Tested<LineCall>, seed: u64, count: usize) -> Result<Tally, Difference> {
    let mut tally = Tally::of(&format!("{}, own members", tested.name));
    let mut random = Random::of(seed, "line, own members");
    for case in 0..count {
        let region = region(case, &mut random);
        compare_each(&mut tally, tested, &region, &mut random)?;
    }
    tally.with_all(&[0])
}

/// Regions with tables over the same members, some of them alike byte for byte.
pub fn repeated_tables(tested: Tested<LineCall>, seed: u64, count: usize) -> Result<Tally, Difference> {
    let mut tally = Tally::of(&format!("{}, repeated tables", tested.name));
    let mut random = Random::of(seed, "line, repeated tables");
    for _ in 0..count {
        let mut region = small::any_region(&mut random);
        for _ in 0..random.between(1, 4) {
            repeat_a_table(&mut region, &mut random);
        }
        compare_each(&mut tally, tested, &region, &mut random)?;
    }
    tally.with_all(&[0])
}

/// Puts a table's copy anywhere among the tables, in half of the cases with an entry changed; where the region has room for it.
fn repeat_a_table(region: &mut Region, random: &mut Random) {
    let entries: usize = region.tables.iter().map(|table| table.entries.len()).sum();
    if region.tables.is_empty() || region.tables.len() == 64 {
        return;
    }
    let mut table = region.tables[random.below(region.tables.len())].clone();
    if random.chance(50) {
        let place = random.below(table.entries.len());
        table.entries[place] = table.entries[place].map_or(Some(0), |_| None);
    }
    if entries + table.entries.len() <= 4_096 {
        region.tables.insert(random.below(region.tables.len() + 1), table);
    }
}

/// Lists beside those of the tables; most find nothing, and none is refused.
pub fn other_members(tested: Tested<LineCall>, seed: u64, count: usize) -> Result<Tally, Difference> {
    let mut tally = Tally::of(&format!("{}, other members", tested.name));
    let mut random = Random::of(seed, "line, other members");
    let mut found = 0;
    for case in 0..count {
        let region = region(case, &mut random);
        let file = spelling::file_of(&region);
        let lines = Lines::of(&file);
        let members = match region.tables.len() {
            0 => vec![0],
            tables => region.tables[random.below(tables)].members.clone(),
        };
        for list in typed::beside(&members, region.patients.len() as u64, &mut random) {
            let result = Area::patterned(ASKED, random.number());
            let given = compare(&mut tally, tested, (&file, &lines), &typed::text_of(&list), result)?;
            found += u64::from(part_of(&file, &given).is_some_and(|line| !line.is_empty()));
        }
    }
    tally.remark(format!("lines found: {found}"));
    tally.with_all(&[0])
}

/// Texts that have not the layout of a list, of the members of a region's tables.
pub fn spoiled_texts(tested: Tested<LineCall>, seed: u64, count: usize) -> Result<Tally, Difference> {
    let mut tally = Tally::of(&format!("{}, spoiled texts", tested.name));
    let mut random = Random::of(seed, "line, spoiled texts");
    for case in 0..count {
        let region = region(case, &mut random);
        let file = spelling::file_of(&region);
        let lines = Lines::of(&file);
        let Some(table) = region.tables.first() else { continue };
        for typed in typed::spoiled(table, &mut random) {
            expect_refused(&mut tally, tested, (&file, &lines), &typed, &mut random)?;
        }
        compare_near(&mut tally, tested, (&file, &lines), &typed::entries_of(table), &mut random)?;
        for _ in 0..8 {
            compare_near(&mut tally, tested, (&file, &lines), &typed::random_text(&mut random), &mut random)?;
        }
    }
    tally.with_all(&[0, 12, 21])
}

/// Every change of one byte of a good text, every byte put in at each place, every byte left out, and all cuts at both ends.
pub fn changed_texts(tested: Tested<LineCall>, seed: u64, _: usize) -> Result<Tally, Difference> {
    let mut tally = Tally::of(&format!("{}, changed texts", tested.name));
    let mut random = Random::of(seed, "line, changed texts");
    let many = small::region(small::Kind::OneBed, &mut random);
    for file in [paper::PRINTED.as_bytes().to_vec(), spelling::file_of(&many)] {
        let lines = Lines::of(&file);
        for good in [&b"(0 1)"[..], b"(1)", b"(10 31 9999999)"] {
            for typed in typed::changed(good) {
                compare_near(&mut tally, tested, (&file, &lines), &typed, &mut random)?;
            }
        }
    }
    tally.with_all(&[0, 12, 21])
}

/// Texts of up to 100,000 bytes: good ones, which find nothing, such with a fault anywhere, and a table's members with much behind them.
pub fn long_texts(tested: Tested<LineCall>, seed: u64, count: usize) -> Result<Tally, Difference> {
    let mut tally = Tally::of(&format!("{}, long texts", tested.name));
    let mut random = Random::of(seed, "line, long texts");
    for case in 0..count {
        let region = small::region(small::Kind::HighPrices, &mut random);
        let file = spelling::file_of(&region);
        let lines = Lines::of(&file);
        let length = LONG[case % LONG.len()];
        let good = typed::of_length(length, &mut random);
        let mut faulty = good.clone();
        faulty[random.below(length)] = random.pick(b"-)(\n");
        let own = typed::text_of(&region.tables[0].members);
        let behind = [&own[..], &vec![random.pick(b" 0)\0"); length]].concat();
        for typed in [&good, &faulty, &good[..length - 1].to_vec(), &[&good[..], b"\n"].concat(), &behind] {
            compare(&mut tally, tested, (&file, &lines), typed, Area::patterned(ASKED, random.number()))?;
        }
    }
    tally.with_all(&[0, 21])
}

/// Files that are refused, with good texts and others and result areas of any length: the file's questions come first.
pub fn faulty_files(tested: Tested<LineCall>, seed: u64, count: usize) -> Result<Tally, Difference> {
    let mut tally = Tally::of(&format!("{}, faulty files", tested.name));
    let mut random = Random::of(seed, "line, faulty files");
    for case in 0..count {
        let file = faulty::file(case, &mut random);
        let lines = Lines::of(&file);
        for typed in [b"(0)".to_vec(), b"0".to_vec(), typed::random_text(&mut random)] {
            let length = random.pick(&[0, 7, 8, 15, 16, 16, 16, 17]);
            compare(&mut tally, tested, (&file, &lines), &typed, Area::patterned(length, random.number()))?;
        }
    }
    tally.with_all(numbers::OF_FILES)
}

/// Result areas of 0 to 39 bytes: where a line is found, where none is, and where the text or the file is refused.
pub fn all_lengths(tested: Tested<LineCall>, seed: u64, count: usize) -> Result<Tally, Difference> {
    let mut tally = Tally::of(&format!("{}, all result lengths", tested.name));
    let mut random = Random::of(seed, "line, all result lengths");
    for case in 0..count {
        let good = spelling::file_of(&small::any_region(&mut random));
        let files = [paper::PRINTED.as_bytes().to_vec(), good, faulty::file(case, &mut random)];
        for file in files {
            let lines = Lines::of(&file);
            for typed in [&b"(0 1)"[..], b"(1 0)", b"(0  1)", b""] {
                for length in 0..40 {
                    compare(&mut tally, tested, (&file, &lines), typed, Area::patterned(length, random.number()))?;
                }
            }
        }
    }
    tally.with_all(&[0, 2, 12, 21])
}
