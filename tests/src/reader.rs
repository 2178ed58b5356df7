//! An independent reader of region files, written from document 01 alone.

use crate::limits::{HIGHEST_ENTRY, MOST_DIGITS};
use crate::region::{Patient, Region, Table};

/// What the lines of a laid-out file say, before any question past 2.
struct Lines {
    v: u64,
    t: u64,
    region: Region,
    end: u64,
    true_sum: u64,
}

type Question = fn(&Region) -> bool;

/// The region of a file, or the number of the first question answered "no".
pub fn read(file: &[u8]) -> Result<Region, u64> {
    let region = summed(file)?;
    judge(&region)?;
    Ok(region)
}

/// The region of a file whose parents may be any that the layout allows; or the first "no" of questions 1 to 9.
pub fn read_whatever_parents(file: &[u8]) -> Result<Region, u64> {
    let region = summed(file)?;
    judge_whatever_parents(&region)?;
    Ok(region)
}

/// Questions 1 to 4, then what the lines say.
fn summed(file: &[u8]) -> Result<Region, u64> {
    if file.len() > 65_535 {
        return Err(1);
    }
    let lines = laid_out(file).ok_or(2u64)?;
    if lines.v != lines.region.patients.len() as u64 || lines.t != lines.region.tables.len() as u64 {
        return Err(3);
    }
    if lines.end != lines.true_sum {
        return Err(4);
    }
    Ok(lines.region)
}

/// What a laid-out file says, whatever it is.
pub fn said(file: &[u8]) -> Option<Region> {
    laid_out(file).map(|lines| lines.region)
}

/// The members of a typed member list, brackets and all; nothing where it has not the layout of one.
pub fn typed_members(typed: &[u8]) -> Option<Vec<u64>> {
    numbers(inside(typed, b"(", b")")?)
}

/// Questions 5 to 10 of a region, V and T being what it has; the number of the first answered "no".
pub fn judge(region: &Region) -> Result<(), u64> {
    judge_to_nine(region, |region| patients_in_limits(region) && parents_in_order(region))?;
    match region.tables.iter().all(|table| on_one_path(region, &table.members)) {
        true => Ok(()),
        false => Err(10),
    }
}

/// Questions 5 to 9, of 6 all but what it asks of parents.
pub fn judge_whatever_parents(region: &Region) -> Result<(), u64> {
    judge_to_nine(region, patients_in_limits)
}

fn judge_to_nine(region: &Region, question_6: Question) -> Result<(), u64> {
    let questions: [(u64, Question); 5] = [
        (5, counts_in_limits),
        (6, question_6),
        (7, |region| region.tables.iter().all(|table| members_in_order(&table.members, region.patients.len() as u64))),
        (8, entries_counted),
        (9, |region| region.tables.iter().all(|table| table.entries.iter().flatten().all(|e| *e <= HIGHEST_ENTRY))),
    ];
    match questions.into_iter().find(|(_, answer)| !answer(region)) {
        Some((number, _)) => Err(number),
        None => Ok(()),
    }
}

/// Question 5.
fn counts_in_limits(region: &Region) -> bool {
    (1..=32).contains(&region.patients.len()) && region.tables.len() <= 64 && (1..=64).contains(&region.m)
}

/// Question 6 without parents.
fn patients_in_limits(region: &Region) -> bool {
    region.patients.iter().all(|patient| {
        patient.clinic <= 15 && (1..=16).contains(&patient.beds) && patient.fixed.is_none_or(|bed| bed < patient.beds)
    })
}

/// What question 6 asks of parents.
fn parents_in_order(region: &Region) -> bool {
    (0..).zip(&region.patients).all(|(number, patient)| patient.parent.is_none_or(|parent| parent < number))
}

/// Question 7, of one table.
fn members_in_order(members: &[u64], v: u64) -> bool {
    (1..=4).contains(&members.len())
        && members.iter().all(|member| *member < v)
        && members.windows(2).all(|pair| pair[0] < pair[1])
}

/// Question 8.
fn entries_counted(region: &Region) -> bool {
    let together: usize = region.tables.iter().map(|table| table.entries.len()).sum();
    region.tables.iter().all(|table| table.entries.len() as u64 == region.entries_over(&table.members))
        && together <= 4_096
}

/// Question 10, of one table.
fn on_one_path(region: &Region, members: &[u64]) -> bool {
    members.iter().all(|one| {
        members.iter().all(|other| one == other || region.is_ancestor(*one, *other) || region.is_ancestor(*other, *one))
    })
}

/// Question 2: every line in its place and of its form.
fn laid_out(file: &[u8]) -> Option<Lines> {
    let lines: Vec<&[u8]> = file.strip_suffix(b"\n")?.split(|byte| *byte == b'\n').collect();
    let (first, others) = lines.split_first()?;
    let (last, middle) = others.split_last()?;
    let header = numbers(inside(first, b"(region ", b")")?)?;
    let [v, t, m] = header[..] else { return None };
    let end = number(inside(last, b"(end ", b")")?)?;
    let patient_lines = middle.iter().take_while(|line| line.starts_with(b"(patient ")).count();
    let (patients, tables) = middle.split_at(patient_lines);
    let region = Region {
        patients: patients.iter().map(|line| patient(line)).collect::<Option<_>>()?,
        tables: tables.iter().map(|line| table(line)).collect::<Option<_>>()?,
        m,
    };
    let before_end = &file[..file.len() - last.len() - 1];
    let true_sum = before_end.iter().map(|byte| u64::from(*byte)).sum::<u64>() % 65_521;
    Some(Lines { v, t, region, end, true_sum })
}

/// `(patient c d p b)`
fn patient(line: &[u8]) -> Option<Patient> {
    let parts = parts(inside(line, b"(patient ", b")")?);
    let [clinic, beds, parent, fixed] = parts[..] else { return None };
    Some(Patient {
        clinic: number(clinic)?,
        beds: number(beds)?,
        parent: number_or_hyphen(parent)?,
        fixed: number_or_hyphen(fixed)?,
    })
}

/// `(cost (s ..) (e ..))`
pub fn table(line: &[u8]) -> Option<Table> {
    let both = inside(line, b"(cost (", b"))")?;
    let between = both.windows(3).position(|three| three == b") (")?;
    let members = numbers(&both[..between])?;
    let entries = parts(&both[between + 3..]).into_iter().map(number_or_hyphen).collect::<Option<_>>()?;
    Some(Table { members, entries })
}

/// What stands between a beginning and an ending of a line.
fn inside<'a>(line: &'a [u8], beginning: &[u8], ending: &[u8]) -> Option<&'a [u8]> {
    line.strip_prefix(beginning)?.strip_suffix(ending)
}

/// Parts between single spaces. A doubled space gives an empty part, which is no number.
fn parts(text: &[u8]) -> Vec<&[u8]> {
    text.split(|byte| *byte == b' ').collect()
}

fn numbers(text: &[u8]) -> Option<Vec<u64>> {
    parts(text).into_iter().map(number).collect()
}

fn number_or_hyphen(part: &[u8]) -> Option<Option<u64>> {
    if part == b"-" {
        return Some(None);
    }
    number(part).map(Some)
}

/// As many digits as a number may have, with no leading zero except `0` itself.
fn number(part: &[u8]) -> Option<u64> {
    let leading_zero = part.len() > 1 && part[0] == b'0';
    if part.is_empty() || part.len() > MOST_DIGITS || leading_zero || !part.iter().all(u8::is_ascii_digit) {
        return None;
    }
    Some(part.iter().fold(0, |value, digit| value * 10 + u64::from(digit - b'0')))
}
