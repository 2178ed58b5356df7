//! A file read, and the held region put into the caller's arrays.

use crate::areas::Arrays;
use crate::baseline::held::{Held, HYPHEN};
use crate::baseline::reader;

/// Read: four result numbers, how many patients, tables, plans wanted and entries there are.
pub fn read(file: &[u8], areas: &mut Arrays) -> u64 {
    let mut held = Held::blank();
    let answer = reader::read(file, &mut held).and_then(|()| put_arrays(&held, areas));
    let counts = match answer {
        Ok(()) => [held.patient_count, held.table_count, held.m, held.entry_count],
        Err(_) => [0; 4],
    };
    if let Some(result) = areas.result.lent().get_mut(..32) {
        put(result, counts.into_iter().map(|count| count as u64));
    }
    answer.err().unwrap_or(0)
}

/// Question 12, then the three areas; on a refusal they are as they were.
fn put_arrays(held: &Held, areas: &mut Arrays) -> Result<(), u64> {
    let result = areas.result.contents().len();
    let patients = areas.patients.lent().get_mut(..held.patient_count * 32);
    let tables = areas.tables.lent().get_mut(..held.table_count * 48);
    let entries = areas.entries.lent().get_mut(..held.entry_count * 8);
    let (Some(patients), Some(tables), Some(entries), 32..) = (patients, tables, entries, result) else {
        return Err(12);
    };
    for (patient, bytes) in held.patients().iter().zip(patients.chunks_exact_mut(32)) {
        let (parent, fixed) = (or_none(patient.parent), or_none(patient.fixed));
        put(bytes, [u64::from(patient.clinic), u64::from(patient.beds), parent, fixed]);
    }
    for (table, bytes) in held.tables().iter().zip(tables.chunks_exact_mut(48)) {
        let [one, two, three, four] = table.members.map(u64::from);
        put(bytes, [table.member_count as u64, one, two, three, four, table.entry_count as u64]);
    }
    put(entries, held.store[..held.entry_count].iter().map(|entry| or_none(*entry)));
    Ok(())
}

fn or_none(number: u32) -> u64 {
    match number {
        HYPHEN => u64::MAX,
        number => u64::from(number),
    }
}

/// Numbers of eight bytes, lowest byte first.
fn put(bytes: &mut [u8], numbers: impl IntoIterator<Item = u64>) {
    let (places, _) = bytes.as_chunks_mut();
    for (place, number) in places.iter_mut().zip(numbers) {
        *place = number.to_le_bytes();
    }
}
