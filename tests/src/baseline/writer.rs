//! A lent region into the held one, and from there to its file.

use crate::areas::Outputs;
use crate::baseline::held::{Held, Patient, Table, HYPHEN, MOST_ENTRIES, MOST_MEMBERS, MOST_PATIENTS, MOST_TABLES};
use crate::baseline::reader::questions_6_to_10;
use crate::lent::Lent;

/// No file is longer.
const MOST_BYTES: usize = 35_038;

/// Write: one result number, the byte count.
pub fn write(lent: &Lent, areas: &mut Outputs) -> u64 {
    let mut held = Held::blank();
    let judged = hold(lent, &mut held).and_then(|()| questions_6_to_10(&held));
    answered(judged.and_then(|()| written(&held, areas)), areas)
}

/// Writes the byte count, or 0 on a refusal, and gives the number.
pub fn answered(answer: Result<u64, u64>, areas: &mut Outputs) -> u64 {
    if let Some(count) = areas.result.lent().get_mut(..8) {
        count.copy_from_slice(&u64::to_le_bytes(answer.unwrap_or(0)));
    }
    answer.err().unwrap_or(0)
}

/// Questions 12 and 15 of a region that was judged. The byte count, the file being in the output area; or the first "no", the area
/// being as it was.
pub fn written(held: &Held, areas: &mut Outputs) -> Result<u64, u64> {
    if areas.result.contents().len() < 8 {
        return Err(12);
    }
    let file = spelled(held);
    areas.output.lent().get_mut(..file.len()).ok_or(15u64)?.copy_from_slice(&file);
    Ok(file.len() as u64)
}

/// Questions 2 and 5. Numbers that the held region has no room for become its highest ones, which are refused as well.
fn hold(lent: &Lent, held: &mut Held) -> Result<(), u64> {
    let (patients, patients_rest) = lent.patients.contents().as_chunks::<32>();
    let (tables, tables_rest) = lent.tables.contents().as_chunks::<48>();
    let (entries, entries_rest) = lent.entries.contents().as_chunks::<8>();
    let counted = tables.iter().try_fold(0u64, |sum, table| sum.checked_add(number(table, 5)));
    let rests = patients_rest.len() + tables_rest.len() + entries_rest.len();
    if rests != 0 || counted != Some(entries.len() as u64) {
        return Err(2);
    }
    if !(1..=MOST_PATIENTS).contains(&patients.len()) || tables.len() > MOST_TABLES || !(1..=64).contains(&lent.m) {
        return Err(5);
    }
    held.m = lent.m as usize;
    held.patient_count = patients.len();
    held.table_count = tables.len();
    held.entry_count = entries.len();
    for (patient, bytes) in held.patients.iter_mut().zip(patients) {
        *patient = patient_in(bytes);
    }
    let mut start = 0;
    for (table, bytes) in held.tables.iter_mut().zip(tables) {
        let members = std::array::from_fn(|place| cut_off(number(bytes, 1 + place)));
        let member_count = number(bytes, 0).min(MOST_MEMBERS as u64 + 1) as usize;
        let entry_count = number(bytes, 5) as usize;
        *table = Table { members, member_count, start, entry_count };
        start += entry_count;
    }
    for (entry, bytes) in held.store.iter_mut().zip(entries.iter().take(MOST_ENTRIES)) {
        *entry = or_hyphen(u64::from_le_bytes(*bytes));
    }
    Ok(())
}

fn patient_in(bytes: &[u8]) -> Patient {
    let (clinic, beds) = (number(bytes, 0), number(bytes, 1));
    let (parent, fixed) = (number(bytes, 2), number(bytes, 3));
    Patient { clinic: cut_off(clinic), beds: cut_off(beds), parent: or_hyphen(parent), fixed: or_hyphen(fixed) }
}

/// A number of a patient or table.
fn number(bytes: &[u8], place: usize) -> u64 {
    let (numbers, _) = bytes.as_chunks();
    u64::from_le_bytes(numbers[place])
}

fn cut_off(number: u64) -> u32 {
    number.min(u64::from(HYPHEN) - 1) as u32
}

fn or_hyphen(number: u64) -> u32 {
    if number == u64::MAX {
        return HYPHEN;
    }
    cut_off(number)
}

/// The file of a region that was judged.
pub fn spelled(held: &Held) -> Vec<u8> {
    let mut text = Text(Vec::with_capacity(MOST_BYTES));
    text.numbers(b"(region ", [held.patient_count, held.table_count, held.m].map(|count| count as u32), b")\n");
    for patient in held.patients() {
        text.numbers(b"(patient ", [patient.clinic, patient.beds, patient.parent, patient.fixed], b")\n");
    }
    for table in held.tables() {
        text.numbers(b"(cost (", table.members().iter().copied(), b") (");
        let entries = &held.store[table.start..table.start + table.entry_count];
        text.numbers(b"", entries.iter().copied(), b"))\n");
    }
    let sum = text.0.iter().map(|byte| u32::from(*byte)).sum::<u32>() % 65_521;
    text.numbers(b"(end ", [sum], b")\n");
    text.0
}

struct Text(Vec<u8>);

impl Text {
    /// Numbers with single spaces between them, and what stands around them.
    #[inline]
    fn numbers(&mut self, before: &[u8], numbers: impl IntoIterator<Item = u32>, behind: &[u8]) {
        self.0.extend_from_slice(before);
        for (place, number) in numbers.into_iter().enumerate() {
            if place > 0 {
                self.0.push(b' ');
            }
            self.number(number);
        }
        self.0.extend_from_slice(behind);
    }

    #[inline]
    fn number(&mut self, number: u32) {
        if number == HYPHEN {
            self.0.push(b'-');
            return;
        }
        let mut digits = [0; 10];
        let mut start = digits.len();
        let mut rest = number;
        loop {
            start -= 1;
            digits[start] = b'0' + (rest % 10) as u8;
            rest /= 10;
            if rest == 0 {
                break;
            }
        }
        self.0.extend_from_slice(&digits[start..]);
    }
}
