//! Files at the limits of size.

use crate::generate::spelling::{file_of, with_end, Draft};
use crate::limits::HIGHEST_ENTRY;
use crate::random::Random;
use crate::region::{Patient, Region, Table};

/// 32 patients in a chain, 8 beds each, a quarter of them fixed, and 64 tables over two of them: 4,096 entries.
pub fn region(random: &mut Random) -> Region {
    let mut region = Region { patients: Vec::new(), tables: Vec::new(), m: 64 };
    for number in 0..32u64 {
        let free = Patient::of(number / 2, 8, number.checked_sub(1));
        region.patients.push(if number % 4 == 1 { free.staying_in(number % 8) } else { free });
    }
    for number in 0..64u64 {
        let first = number % 31;
        let second = random.between(first + 1, 31);
        let entries = (0..64).map(|_| (!random.chance(5)).then(|| random.between(0, HIGHEST_ENTRY))).collect();
        region.tables.push(Table { members: vec![first, second], entries });
    }
    region
}

/// A region whose file is about as long as one can be: the most of everything, numbers of the most digits,
/// 64 tables over four patients of two digits, and every patient in the last bed.
pub fn longest_region() -> Region {
    let beds_of = |number: u64| if number < 28 { 16 } else { [16, 4, 1, 1][number as usize - 28] };
    let patient = |number: u64| Patient::of(15, beds_of(number), number.checked_sub(1)).staying_in(beds_of(number) - 1);
    let patients = (0..32).map(patient).collect();
    let table = Table { members: vec![28, 29, 30, 31], entries: vec![Some(HIGHEST_ENTRY); 64] };
    Region { patients, tables: vec![table; 64], m: 64 }
}

/// The same but for the last table, which is over three of the four patients: its line is found by its own members alone.
pub fn longest_with_own_last_table() -> Region {
    let mut region = longest_region();
    region.tables.last_mut().expect("64 tables").members.pop();
    region
}

/// A good file of full size.
pub fn good_file(random: &mut Random) -> Vec<u8> {
    file_of(&region(random))
}

/// A laid-out file of exactly this many bytes (at least 60,000): a full-size region whose last
/// table has entries to fill the file. Up to 65,535 bytes it is refused with 8.
pub fn laid_out_file(length: usize, random: &mut Random) -> Vec<u8> {
    const LINE_TAIL: &[u8] = b"))\n";
    const END_LINE: usize = "(end 12345)\n".len();
    loop {
        let mut body = Draft::of(&region(random)).body();
        body.truncate(body.len() - LINE_TAIL.len());
        fill(&mut body, length - END_LINE - LINE_TAIL.len(), random);
        body.extend(LINE_TAIL);
        let file = with_end(&body);
        // A sum of fewer digits makes another end line: then draw again.
        if file.len() == length {
            return file;
        }
    }
}

/// Adds entries, each after a space, up to a length.
fn fill(body: &mut Vec<u8>, length: usize, random: &mut Random) {
    while body.len() < length {
        let digits = match length - body.len() {
            8 => 5,
            missing => missing.min(7) - 1,
        };
        let lowest = 10u64.pow(digits as u32 - 1);
        body.extend(format!(" {}", random.between(lowest, lowest * 10 - 1)).bytes());
    }
}
