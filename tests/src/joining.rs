//! What join must answer, by the independent program. The joined file is made of the words of the two files' own lines:
//! what is only to be copied is not read as anything.

use crate::areas::Outputs;
use crate::generate::spelling::with_end;
use crate::outcomes::{self, write_result};

/// How the result area says which file a number is about.
pub const NEITHER: u64 = 0;
pub const FIRST: u64 = 1;
pub const SECOND: u64 = 2;

/// How many bytes of result question 12 asks for.
pub const RESULT_BYTES: usize = 16;

/// The independent program's view of two files.
pub struct Joining {
    /// The first "no" of questions 1 to 10 of the first file, then of the second; 0 where both are accepted.
    number: u64,
    which: u64,
    /// The joined file, or 16 or 17; asked only of accepted files.
    made: Result<Vec<u8>, u64>,
}

impl Joining {
    pub fn of(first: &[u8], second: &[u8]) -> Joining {
        match (outcomes::check(first), outcomes::check(second)) {
            (0, 0) => Joining { number: 0, which: NEITHER, made: joined(&Words::of(first), &Words::of(second)) },
            (0, number) => Joining { number, which: SECOND, made: Err(number) },
            (number, _) => Joining { number, which: FIRST, made: Err(number) },
        }
    }

    /// The number of the join call; its result area has two numbers, the byte count and which file is refused.
    pub fn join(&self, areas: &mut Outputs) -> u64 {
        let number = self.number_for(areas);
        let mut count = 0;
        if let (0, Ok(file)) = (number, &self.made) {
            areas.output.lent()[..file.len()].copy_from_slice(file);
            count = file.len() as u64;
        }
        write_result(areas.result.lent(), &[count, self.which]);
        number
    }

    fn number_for(&self, areas: &Outputs) -> u64 {
        match &self.made {
            _ if self.number != 0 => self.number,
            _ if areas.result.contents().len() < RESULT_BYTES => 12,
            Err(number) => *number,
            Ok(file) if areas.output.contents().len() < file.len() => 15,
            Ok(_) => 0,
        }
    }

    /// The same answers with another file, where there is one.
    pub fn with_file(self, file: impl FnOnce() -> Vec<u8>) -> Joining {
        Joining { made: self.made.map(|_| file()), ..self }
    }

    /// Which file the number is about.
    pub fn which(&self) -> u64 {
        self.which
    }

    /// The joined file, where no question but those of the areas is answered "no".
    pub fn file(&self) -> Option<&[u8]> {
        self.made.as_deref().ok()
    }
}

/// An accepted file as words. A patient has its four fields; a table has its members, and its entries as one text.
struct Words<'a> {
    m: u64,
    patients: Vec<Vec<&'a str>>,
    tables: Vec<(Vec<&'a str>, &'a str)>,
}

impl Words<'_> {
    fn of(file: &[u8]) -> Words<'_> {
        let text = std::str::from_utf8(file).expect("an accepted file is text");
        let counts = text.lines().find_map(|line| inside(line, "(region ", ")")).expect("a first line");
        let patients = text.lines().filter_map(|line| inside(line, "(patient ", ")"));
        let tables = text.lines().filter_map(|line| inside(line, "(cost (", "))")?.split_once(") ("));
        Words {
            m: counts.split(' ').nth(2).and_then(|m| m.parse().ok()).expect("V, T and m"),
            patients: patients.map(|fields| fields.split(' ').collect()).collect(),
            tables: tables.map(|(members, entries)| (members.split(' ').collect(), entries)).collect(),
        }
    }

    fn entries(&self) -> usize {
        self.tables.iter().map(|(_, entries)| entries.split(' ').count()).sum()
    }
}

/// What stands between a beginning and an ending of a line.
fn inside<'a>(line: &'a str, beginning: &str, ending: &str) -> Option<&'a str> {
    line.strip_prefix(beginning)?.strip_suffix(ending)
}

/// A patient's number that is so many more; a hyphen stays.
fn moved(word: &str, more: usize) -> String {
    word.parse().map_or(word.to_string(), |number: usize| (number + more).to_string())
}

/// Questions 16 and 17, then the file. A clinic has one spelling, so its word is compared.
fn joined(first: &Words, second: &Words) -> Result<Vec<u8>, u64> {
    let shared = |patient: &Vec<&str>| second.patients.iter().any(|other| other[0] == patient[0]);
    if first.patients.iter().any(shared) {
        return Err(16);
    }
    let patients = first.patients.len() + second.patients.len();
    let tables = first.tables.len() + second.tables.len();
    if patients > 32 || tables > 64 || first.entries() + second.entries() > 4_096 {
        return Err(17);
    }
    let mut text = format!("(region {patients} {tables} {})\n", first.m.min(second.m));
    let both = [(first, 0), (second, first.patients.len())];
    for (file, more) in both {
        for patient in &file.patients {
            text += &format!("(patient {} {} {} {})\n", patient[0], patient[1], moved(patient[2], more), patient[3]);
        }
    }
    for (file, more) in both {
        for (members, entries) in &file.tables {
            let members: Vec<String> = members.iter().map(|member| moved(member, more)).collect();
            text += &format!("(cost ({}) ({entries}))\n", members.join(" "));
        }
    }
    Ok(with_end(text.as_bytes()))
}
