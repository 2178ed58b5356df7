//! There and back: what is read is lent to write and gives the file's own bytes, what is written of a lent region says that region when
//! it is read, and what is changed in between is changed in the file.

use crate::areas::{Arrays, Outputs};
use crate::compare::read::{difference, files};
use crate::compare::report::{arrays_text, readable, Difference, Tally};
use crate::compare::{paper, ReadCall, Tested, LIBRARY};
use crate::generate::{lent_faults, spelling};
use crate::lent::{Lent, NONE};
use crate::limits::{HIGHEST_ENTRY, MOST_WRITTEN_BYTES};
use crate::random::Random;
use crate::reading::MOST_BYTES;
use crate::region::Region;
use crate::{files as held, reader};

/// Good files of every kind, the paper's and those of the repository: the bytes that are counted, lent to write, give the file.
pub fn files(tested: Tested<ReadCall>, seed: u64, count: usize) -> Result<Tally, Difference> {
    let mut tally = Tally::of(&format!("{}, there and back", tested.name));
    let mut random = Random::of(seed, "read, there and back");
    for case in 0..count {
        let file = spelling::file_of(&files::region(case, &mut random));
        compare_back(&mut tally, tested, &file, &mut random)?;
    }
    let made = held::all().into_iter().map(|made| made.bytes).chain(paper::accepted());
    for file in made.filter(|file| reader::read(file).is_ok()) {
        compare_back(&mut tally, tested, &file, &mut random)?;
    }
    tally.with_all(&[0])
}

fn compare_back(
    tally: &mut Tally,
    tested: Tested<ReadCall>,
    file: &[u8],
    random: &mut Random,
) -> Result<(), Difference> {
    let lent = read(tally, tested, file, random)?;
    let given = written(&lent);
    if given.as_deref() == Ok(file) {
        tally.count(0);
        return Ok(());
    }
    let told = given.map_or_else(|number| number.to_string(), |given| format!("\n{}", readable(&given)));
    let answers = vec![
        ("due of write".to_string(), "the file itself".to_string()),
        (format!("write of what {} leaves", tested.name), told),
    ];
    Err(difference(tally, file, answers))
}

/// What a good file is read as, in areas that are long enough for every file; the number must be 0.
fn read(tally: &Tally, tested: Tested<ReadCall>, file: &[u8], random: &mut Random) -> Result<Lent, Difference> {
    let mut areas = Arrays::patterned(MOST_BYTES, random.number());
    let number = (tested.call)(file, &mut areas);
    match Lent::of_read(&areas).filter(|_| number == 0) {
        Some(lent) => Ok(lent),
        None => {
            let answers = vec![
                ("known from how the file was made".to_string(), "0, and counts within the areas".to_string()),
                (tested.name.to_string(), format!("{number}{}", arrays_text(&areas))),
            ];
            Err(difference(tally, file, answers))
        }
    }
}

/// What the library writes of a lent region, or its number.
fn written(lent: &Lent) -> Result<Vec<u8>, u64> {
    let mut areas = Outputs::patterned(MOST_WRITTEN_BYTES, 8, 0);
    match (LIBRARY.write.call)(lent, &mut areas) {
        0 => Ok(areas.counted().to_vec()),
        number => Err(number),
    }
}

/// Regions lent to write, with any numbers where a table has no more members: what is read of the file is the same region, with
/// zeros in those places.
pub fn regions(tested: Tested<ReadCall>, seed: u64, count: usize) -> Result<Tally, Difference> {
    let mut tally = Tally::of(&format!("{}, of what is written", tested.name));
    let mut random = Random::of(seed, "read, of what is written");
    for case in 0..count {
        let region = files::region(case, &mut random);
        let file = written(&lent_faults::lent(&region, &mut random)).expect("a good region");
        let lent = read(&tally, tested, &file, &mut random)?;
        if lent != Lent::of(&region) {
            let answers = vec![
                ("lent to write".to_string(), format!("{region:?}")),
                (format!("what {} leaves", tested.name), format!("{:?}", lent.region())),
            ];
            return Err(difference(&tally, &file, answers));
        }
        tally.count(0);
    }
    tally.with_all(&[0])
}

/// Another m, another price, a forbidden entry or a free one, another clinic: changed in the arrays, written, and read by the
/// independent reader, the file says the region with that change.
pub fn changed_regions(tested: Tested<ReadCall>, seed: u64, count: usize) -> Result<Tally, Difference> {
    let mut tally = Tally::of(&format!("{}, changed in between", tested.name));
    let mut random = Random::of(seed, "read, changed in between");
    for case in 0..count {
        let mut region = files::region(case, &mut random);
        let file = spelling::file_of(&region);
        let mut lent = read(&tally, tested, &file, &mut random)?;
        change_both(&mut region, &mut lent, &mut random);
        let given = written(&lent).map(|file| reader::read(&file));
        if given != Ok(Ok(region.clone())) {
            let answers = vec![
                ("the region with the change".to_string(), format!("{region:?}")),
                (format!("read of write of what {} leaves, changed", tested.name), format!("{given:?}")),
            ];
            return Err(difference(&tally, &file, answers));
        }
        tally.count(0);
    }
    tally.with_all(&[0])
}

/// Puts a number into an area.
fn put(area: &mut [u8], place: usize, number: u64) {
    area[place * 8..place * 8 + 8].copy_from_slice(&number.to_le_bytes());
}

/// The same change of the region and of what is lent, each by its own places. An area of what is lent may be shorter than it should be.
fn change_both(region: &mut Region, lent: &mut Lent, random: &mut Random) {
    let (patient, m) = (random.below(region.patients.len()), random.between(1, 64));
    let entries = lent.entries.contents().len() / 8;
    match random.below(6) {
        0 => (region.m, lent.m) = (m, m),
        1 if lent.patients.contents().len() == region.patients.len() * 32 => {
            let clinic = random.between(0, 15);
            region.patients[patient].clinic = clinic;
            put(lent.patients.lent(), patient * 4, clinic);
        }
        _ if entries > 0 => {
            let place = random.below(entries);
            let price = (!random.chance(30)).then(|| random.between(0, HIGHEST_ENTRY));
            if let Some(entry) = region.tables.iter_mut().flat_map(|table| &mut table.entries).nth(place) {
                *entry = price;
            }
            put(lent.entries.lent(), place, price.unwrap_or(NONE));
        }
        _ => (region.m, lent.m) = (m, m),
    }
}
