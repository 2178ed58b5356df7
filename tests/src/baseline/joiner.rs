//! Two files read, the second region put behind the first, and the file of both.

use crate::areas::Outputs;
use crate::baseline::calls::write_two;
use crate::baseline::held::{Held, Table, HYPHEN, MOST_ENTRIES, MOST_PATIENTS, MOST_TABLES};
use crate::baseline::reader::read;
use crate::baseline::writer::spelled;

/// Join: two result numbers, the byte count and which file is refused.
pub fn join(first: &[u8], second: &[u8], areas: &mut Outputs) -> u64 {
    let (count, which, number) = match joined(first, second, areas) {
        Ok(count) => (count, 0, 0),
        Err((which, number)) => (0, which, number),
    };
    write_two(areas.result.lent(), count, which);
    number
}

/// The byte count, the file being in the output area; or which file is refused and the first "no", the area being as it was.
fn joined(first: &[u8], second: &[u8], areas: &mut Outputs) -> Result<u64, (u64, u64)> {
    let (mut held, mut other) = (Held::blank(), Held::blank());
    read(first, &mut held).map_err(|number| (1, number))?;
    read(second, &mut other).map_err(|number| (2, number))?;
    if areas.result.contents().len() < 16 {
        return Err((0, 12));
    }
    if clinics(&held) & clinics(&other) != 0 {
        return Err((0, 16));
    }
    let within = held.patient_count + other.patient_count <= MOST_PATIENTS
        && held.table_count + other.table_count <= MOST_TABLES
        && held.entry_count + other.entry_count <= MOST_ENTRIES;
    if !within {
        return Err((0, 17));
    }
    append(&mut held, &other);
    let file = spelled(&held);
    areas.output.lent().get_mut(..file.len()).ok_or((0, 15))?.copy_from_slice(&file);
    Ok(file.len() as u64)
}

/// A bit for each clinic that has a patient.
fn clinics(held: &Held) -> u32 {
    held.patients().iter().fold(0, |clinics, patient| clinics | 1 << patient.clinic)
}

/// Puts a region, for which there is room, behind another: its patients get new numbers, its entries new places.
fn append(held: &mut Held, other: &Held) {
    let more = held.patient_count as u32;
    for (place, patient) in held.patients[held.patient_count..].iter_mut().zip(other.patients()) {
        *place = *patient;
        if place.parent != HYPHEN {
            place.parent += more;
        }
    }
    for (place, table) in held.tables[held.table_count..].iter_mut().zip(other.tables()) {
        *place = Table {
            members: table.members.map(|member| member + more),
            start: table.start + held.entry_count,
            ..*table
        };
    }
    held.store[held.entry_count..][..other.entry_count].copy_from_slice(&other.store[..other.entry_count]);
    held.m = held.m.min(other.m);
    held.patient_count += other.patient_count;
    held.table_count += other.table_count;
    held.entry_count += other.entry_count;
}
