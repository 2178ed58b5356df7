//! Regions written as files. A draft may state wrong counts, so that faulty files can be written too.

use crate::region::{Patient, Region, Table};

/// A file to be written: a region, and the counts that its first line states.
#[derive(Clone)]
pub struct Draft {
    pub v: u64,
    pub t: u64,
    pub region: Region,
}

impl Draft {
    /// A draft that states the true counts.
    pub fn of(region: &Region) -> Draft {
        let region = region.clone();
        Draft { v: region.patients.len() as u64, t: region.tables.len() as u64, region }
    }

    /// The lines before the end line.
    pub fn body(&self) -> Vec<u8> {
        let mut text = format!("(region {} {} {})\n", self.v, self.t, self.region.m);
        for patient in &self.region.patients {
            text += &patient_line(patient);
        }
        for table in &self.region.tables {
            text += &table_line(table);
        }
        text.into_bytes()
    }

    /// The file with a true end line.
    pub fn file(&self) -> Vec<u8> {
        with_end(&self.body())
    }
}

/// The lines of a region's file before the end line.
pub fn body_of(region: &Region) -> Vec<u8> {
    Draft::of(region).body()
}

/// The file of a region.
pub fn file_of(region: &Region) -> Vec<u8> {
    Draft::of(region).file()
}

pub fn patient_line(patient: &Patient) -> String {
    let (parent, fixed) = (or_hyphen(&patient.parent), or_hyphen(&patient.fixed));
    format!("(patient {} {} {parent} {fixed})\n", patient.clinic, patient.beds)
}

/// The file of a region as it was spelled before a patient had a fourth field, which is left out.
pub fn in_old_form(region: &Region) -> Vec<u8> {
    let shortened = |line: &[u8]| match line.strip_prefix(b"(patient ") {
        Some(_) => {
            let space = line.iter().rposition(|byte| *byte == b' ').expect("a fourth field");
            [&line[..space], b")\n"].concat()
        }
        None => line.to_vec(),
    };
    with_end(&lines_of(&body_of(region)).into_iter().map(shortened).collect::<Vec<_>>().concat())
}

pub fn table_line(table: &Table) -> String {
    let members: Vec<String> = table.members.iter().map(u64::to_string).collect();
    let entries: Vec<String> = table.entries.iter().map(or_hyphen).collect();
    format!("(cost ({}) ({}))\n", members.join(" "), entries.join(" "))
}

pub fn end_line(sum: u64) -> String {
    format!("(end {sum})\n")
}

fn or_hyphen(number: &Option<u64>) -> String {
    number.map_or("-".to_string(), |number| number.to_string())
}

/// The sum of bytes that an end line states.
pub fn sum_of(body: &[u8]) -> u64 {
    body.iter().map(|byte| u64::from(*byte)).sum::<u64>() % 65_521
}

/// The body with an end line that states its true sum.
pub fn with_end(body: &[u8]) -> Vec<u8> {
    with_stated_end(body, sum_of(body))
}

/// The body with an end line that states this sum.
pub fn with_stated_end(body: &[u8], sum: u64) -> Vec<u8> {
    [body, end_line(sum).as_bytes()].concat()
}

/// A file's lines, each with its line end.
pub fn lines_of(file: &[u8]) -> Vec<&[u8]> {
    file.split_inclusive(|byte| *byte == b'\n').collect()
}

/// All lines but the last, with the end line that makes their sum right again.
pub fn with_right_sum(file: &[u8]) -> Vec<u8> {
    let lines = lines_of(file);
    let before = lines.len().saturating_sub(1);
    with_end(&lines[..before].concat())
}
