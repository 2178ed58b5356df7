//! What read must answer, by the independent program: the number, and every byte of every lent area afterwards.

use crate::areas::{ArrayLengths, Arrays};
use crate::lent::{Numbers, PATIENT_BYTES, TABLE_BYTES};
use crate::outcomes::write_result;
use crate::reader;
use crate::region::Region;

/// How many bytes of result question 12 asks for.
pub const RESULT_BYTES: usize = 32;

/// Areas that are long enough for every file.
pub const MOST_BYTES: ArrayLengths = [32 * PATIENT_BYTES, 64 * TABLE_BYTES, 4_096 * 8, RESULT_BYTES];

/// The independent program's view of one file.
pub struct Reading {
    /// The numbers that are due, 0 in the places that have no member; or the first "no" of questions 1 to 10.
    read: Result<Numbers, u64>,
}

impl Reading {
    pub fn of(file: &[u8]) -> Reading {
        Reading::judged(reader::read(file).as_ref().map_err(|number| *number))
    }

    /// The same of a file that says this region, or is refused with this number.
    pub fn judged(read: Result<&Region, u64>) -> Reading {
        Reading { read: read.map(|region| Numbers::of(region, || 0)) }
    }

    /// What question 12 asks for; nothing where the file is refused.
    pub fn asked(&self) -> Option<ArrayLengths> {
        self.read.as_ref().ok().map(asked_for)
    }

    /// The number of the read call; its result area has four numbers, how many patients, tables, plans wanted and entries there are.
    pub fn read(&self, areas: &mut Arrays) -> u64 {
        write_result(areas.result.lent(), &[0; 4]);
        let numbers = match &self.read {
            Ok(numbers) => numbers,
            Err(number) => return *number,
        };
        let too_short = |(lent, asked): (usize, usize)| lent < asked;
        if areas.lengths().into_iter().zip(asked_for(numbers)).any(too_short) {
            return 12;
        }
        write_result(areas.patients.lent(), numbers.patients.as_flattened());
        write_result(areas.tables.lent(), numbers.tables.as_flattened());
        write_result(areas.entries.lent(), &numbers.entries);
        let [patients, tables, entries] = counts_of(numbers);
        write_result(areas.result.lent(), &[patients as u64, tables as u64, numbers.m, entries as u64]);
        0
    }
}

fn counts_of(numbers: &Numbers) -> [usize; 3] {
    [numbers.patients.len(), numbers.tables.len(), numbers.entries.len()]
}

fn asked_for(numbers: &Numbers) -> ArrayLengths {
    let [patients, tables, entries] = counts_of(numbers);
    [patients * PATIENT_BYTES, tables * TABLE_BYTES, entries * 8, RESULT_BYTES]
}
