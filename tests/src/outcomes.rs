//! What each call from C must answer, by the independent program: the number, and every byte of
//! every lent area afterwards. Join is in `joining`, read in `reading`.

use crate::areas::{Areas, Outputs};
use crate::generate::spelling;
use crate::lent::Lent;
use crate::plans::{self, Row};
use crate::reader;
use crate::reading::Reading;
use crate::region::Region;

/// The independent program's view of one file.
pub struct Outcomes {
    read: Result<Region, u64>,
    list: Vec<Row>,
}

/// The number of the check call.
pub fn check(file: &[u8]) -> u64 {
    reader::read(file).err().unwrap_or(0)
}

impl Outcomes {
    /// Reads the file and walks all its plans.
    pub fn of(file: &[u8]) -> Outcomes {
        let read = reader::read(file);
        let list = read.as_ref().map(plans::list).unwrap_or_default();
        Outcomes { read, list }
    }

    /// The number of the price call; its result area has two numbers, allowed and total.
    pub fn price(&self, plan: &[u8], result: &mut [u8]) -> u64 {
        write_result(result, &[0, 0]);
        let region = match &self.read {
            Ok(region) => region,
            Err(number) => return *number,
        };
        if result.len() < 16 {
            return 12;
        }
        let fits = plan.len() == region.patients.len()
            && plan.iter().zip(&region.patients).all(|(bed, patient)| u64::from(*bed) < patient.beds);
        if !fits {
            return 14;
        }
        if let Some(total) = plans::total(region, plan) {
            write_result(result, &[1, total]);
        }
        0
    }

    /// The number of the list call.
    pub fn list(&self, areas: &mut Areas) -> u64 {
        self.rows_call(areas, |_| true, |_, list| list.to_vec())
    }

    /// The number of the sheet call.
    pub fn sheet(&self, clinic: u64, areas: &mut Areas) -> u64 {
        let has_patient = |region: &Region| region.patients.iter().any(|patient| patient.clinic == clinic);
        self.rows_call(areas, has_patient, |region, list| plans::sheet(region, list, clinic))
    }

    /// Questions 1 to 10, question 11 as given, 12 and 13; then the rows are written.
    pub fn rows_call(
        &self,
        areas: &mut Areas,
        question_11: impl Fn(&Region) -> bool,
        rows: impl Fn(&Region, &[Row]) -> Vec<Row>,
    ) -> u64 {
        write_result(areas.result.lent(), &[0]);
        let region = match &self.read {
            Ok(region) => region,
            Err(number) => return *number,
        };
        if !question_11(region) {
            return 11;
        }
        let m = region.m as usize;
        let long_enough = areas.beds.lent().len() >= m * region.patients.len()
            && areas.costs.lent().len() >= m * 8
            && areas.result.lent().len() >= 8;
        if !long_enough {
            return 12;
        }
        match self.listed() {
            Err(number) => number,
            Ok((region, list)) => {
                write_rows(areas, &rows(region, list));
                0
            }
        }
    }

    /// The region and its list; or the first "no" of questions 1 to 10 and 13.
    pub fn listed(&self) -> Result<(&Region, &[Row]), u64> {
        match &self.read {
            Err(number) => Err(*number),
            Ok(_) if self.list.is_empty() => Err(13),
            Ok(region) => Ok((region, &self.list)),
        }
    }

    /// The region, where the file is accepted.
    pub fn region(&self) -> Option<&Region> {
        self.read.as_ref().ok()
    }

    /// The lines of this file, which was read.
    pub fn lines(&self, file: &[u8]) -> Lines {
        Lines::judged(file, self.read.as_ref().err().copied().unwrap_or(0))
    }

    /// What read makes of this file.
    pub fn reading(&self) -> Reading {
        Reading::judged(self.read.as_ref().map_err(|number| *number))
    }

    /// The list's rows; none where the file is refused.
    pub fn rows(&self) -> &[Row] {
        &self.list
    }
}

/// A line of a file that is a table's: its members, where it starts, and its length without its line end.
pub struct TableLine {
    pub members: Vec<u64>,
    pub start: u64,
    pub size: u64,
}

/// The independent program's view of a file's lines.
pub struct Lines {
    number: u64,
    file_length: u64,
    pub tables: Vec<TableLine>,
}

impl Lines {
    pub fn of(file: &[u8]) -> Lines {
        Lines::judged(file, check(file))
    }

    /// The lines of a file for which check gives this number.
    pub fn judged(file: &[u8], number: u64) -> Lines {
        let mut tables = Vec::new();
        let mut start = 0;
        for line in file.split(|byte| *byte == b'\n') {
            let size = line.len() as u64;
            tables.extend(reader::table(line).map(|table| TableLine { members: table.members, start, size }));
            start += size + 1;
        }
        Lines { number, file_length: file.len() as u64, tables }
    }

    /// The number of the line call; its result area has two numbers, where the line starts and its length.
    pub fn line(&self, typed: &[u8], result: &mut [u8]) -> u64 {
        write_result(result, &[0, 0]);
        if self.number == 0 && result.len() < 16 {
            return 12;
        }
        let (number, start, size) = self.entry(typed);
        if number == 0 {
            write_result(result, &[start, size]);
        }
        number
    }

    /// What line's entry in Rattle hands back: its number, and the start and the length of the part.
    pub fn entry(&self, typed: &[u8]) -> (u64, u64, u64) {
        let nothing = (self.file_length, 0);
        let (number, (start, size)) = match (self.number, reader::typed_members(typed)) {
            (0, Some(members)) => (0, self.first_over(&members).unwrap_or(nothing)),
            (0, None) => (21, nothing),
            (refusal, _) => (refusal, nothing),
        };
        (number, start, size)
    }

    fn first_over(&self, members: &[u64]) -> Option<(u64, u64)> {
        self.tables.iter().find(|line| line.members == members).map(|line| (line.start, line.size))
    }
}

/// The file of a lent region; or the first "no" of question 2, put to the areas, and of 5 to 10.
pub fn file_of_lent(lent: &Lent) -> Result<Vec<u8>, u64> {
    let region = lent.region()?;
    reader::judge(&region)?;
    Ok(spelling::file_of(&region))
}

/// The number of the write call for this file or refusal: questions 12 and 15, then the file is written.
pub fn write(file: &Result<Vec<u8>, u64>, areas: &mut Outputs) -> u64 {
    write_result(areas.result.lent(), &[0]);
    match file {
        Err(number) => *number,
        Ok(_) if areas.result.contents().len() < 8 => 12,
        Ok(file) if areas.output.contents().len() < file.len() => 15,
        Ok(file) => {
            areas.output.lent()[..file.len()].copy_from_slice(file);
            write_result(areas.result.lent(), &[file.len() as u64]);
            0
        }
    }
}

/// Row r's beds from r times the row's length on, its cost at place r, and the row count.
fn write_rows(areas: &mut Areas, rows: &[Row]) {
    for (place, row) in rows.iter().enumerate() {
        let start = place * row.beds.len();
        areas.beds.lent()[start..start + row.beds.len()].copy_from_slice(&row.beds);
        areas.costs.lent()[place * 8..place * 8 + 8].copy_from_slice(&row.cost.to_le_bytes());
    }
    write_result(areas.result.lent(), &[rows.len() as u64]);
}

/// Writes the numbers, lowest byte first, where the area has room for all of them.
pub fn write_result(result: &mut [u8], numbers: &[u64]) {
    if result.len() < numbers.len() * 8 {
        return;
    }
    for (place, number) in numbers.iter().enumerate() {
        result[place * 8..place * 8 + 8].copy_from_slice(&number.to_le_bytes());
    }
}
