//! Five calls of a file over the baseline reader and search; write is in `writer`, read in `array_reader`, join in `joiner`, parents in
//! `parent_maker`.

use crate::areas::Areas;
use crate::baseline::held::{Held, Patient, Table, HYPHEN};
use crate::baseline::reader::{is_member_list, read};
use crate::baseline::rows::Row;
use crate::baseline::search;

pub use crate::baseline::reader::check;

/// Price: two result numbers, allowed and total.
pub fn price(file: &[u8], plan: &[u8], result: &mut [u8]) -> u64 {
    let answer = priced(file, plan, result.len());
    let (number, allowed, total) = match answer {
        Ok(Some(total)) => (0, 1, total),
        Ok(None) => (0, 0, 0),
        Err(number) => (number, 0, 0),
    };
    write_two(result, allowed, total);
    number
}

/// Two numbers, where the result area has room for both.
pub fn write_two(result: &mut [u8], first: u64, second: u64) {
    if let Some(numbers) = result.get_mut(..16) {
        numbers[..8].copy_from_slice(&first.to_le_bytes());
        numbers[8..].copy_from_slice(&second.to_le_bytes());
    }
}

fn priced(file: &[u8], plan: &[u8], result_length: usize) -> Result<Option<u64>, u64> {
    let mut held = Held::blank();
    read(file, &mut held)?;
    if result_length < 16 {
        return Err(12);
    }
    let fits = |(bed, patient): (&u8, &Patient)| u32::from(*bed) < patient.beds;
    if plan.len() != held.patient_count || !plan.iter().zip(held.patients()).all(fits) {
        return Err(14);
    }
    let moved = |(bed, patient): (&u8, &Patient)| patient.fixed != HYPHEN && u32::from(*bed) != patient.fixed;
    if plan.iter().zip(held.patients()).any(moved) {
        return Ok(None);
    }
    let mut total = 0;
    for table in held.tables() {
        match entry(&held, table, plan) {
            HYPHEN => return Ok(None),
            price => total += u64::from(price),
        }
    }
    Ok(Some(total))
}

/// The entry of a table for a plan, by strides from the last member on.
fn entry(held: &Held, table: &Table, plan: &[u8]) -> u32 {
    let mut place = table.start;
    let mut stride = 1;
    for member in table.members().iter().rev() {
        place += stride * plan[*member as usize] as usize;
        stride *= held.patients[*member as usize].beds as usize;
    }
    held.store[place]
}

/// Line: two result numbers, where it starts in the file and its length.
pub fn line(file: &[u8], typed: &[u8], result: &mut [u8]) -> u64 {
    match found(file, typed, result.len()) {
        Ok((start, length)) => {
            write_two(result, start as u64, length as u64);
            0
        }
        Err(number) => {
            write_two(result, 0, 0);
            number
        }
    }
}

/// In an accepted file a table is over the typed members where its line begins with them.
fn found(file: &[u8], typed: &[u8], result_length: usize) -> Result<(usize, usize), u64> {
    read(file, &mut Held::blank())?;
    if result_length < 16 {
        return Err(12);
    }
    if !is_member_list(typed) {
        return Err(21);
    }
    let over = |line: &[u8]| line.strip_prefix(b"(cost ").is_some_and(|members| members.starts_with(typed));
    let mut start = 0;
    for line in file.split_inclusive(|byte| *byte == b'\n') {
        if over(line) {
            return Ok((start, line.len() - 1));
        }
        start += line.len();
    }
    Ok((start, 0))
}

/// List: one result number, the row count.
pub fn list(file: &[u8], areas: &mut Areas) -> u64 {
    answered(areas, |areas| {
        let mut held = Held::blank();
        read(file, &mut held)?;
        let rows = rows_of(&held, areas)?;
        for (place, row) in rows.iter().enumerate() {
            write_row(areas, place, &row.beds[..held.patient_count], row.cost);
        }
        Ok(rows.len())
    })
}

/// Sheet: one result number, the row count.
pub fn sheet(file: &[u8], clinic: u64, areas: &mut Areas) -> u64 {
    answered(areas, |areas| {
        let mut held = Held::blank();
        read(file, &mut held)?;
        let inside = |number: usize| u64::from(held.patients[number].clinic) == clinic;
        let patients: Vec<usize> = (0..held.patient_count).filter(|number| inside(*number)).collect();
        if patients.is_empty() {
            return Err(11);
        }
        let own = |table: &&Table| inside(table.members()[0] as usize);
        let own_tables: Vec<&Table> = held.tables().iter().filter(own).collect();
        let mut parts: Vec<Vec<u8>> = Vec::new();
        for row in rows_of(&held, areas)? {
            let part: Vec<u8> = patients.iter().map(|number| row.beds[*number]).collect();
            if !parts.contains(&part) {
                let cost = own_tables.iter().map(|table| u64::from(entry(&held, table, &row.beds))).sum();
                write_row(areas, parts.len(), &part, cost);
                parts.push(part);
            }
        }
        Ok(parts.len())
    })
}

/// Writes the row count, or 0 on a refusal, and gives the number.
fn answered(areas: &mut Areas, call: impl Fn(&mut Areas) -> Result<usize, u64>) -> u64 {
    let answer = call(areas);
    if let Some(result) = areas.result.lent().get_mut(..8) {
        result.copy_from_slice(&(answer.unwrap_or(0) as u64).to_le_bytes());
    }
    answer.err().unwrap_or(0)
}

/// Questions 12 and 13, and the list's rows.
fn rows_of(held: &Held, areas: &Areas) -> Result<Vec<Row>, u64> {
    let long_enough = areas.beds.contents().len() >= held.m * held.patient_count
        && areas.costs.contents().len() >= held.m * 8
        && areas.result.contents().len() >= 8;
    if !long_enough {
        return Err(12);
    }
    let found = search::list(held, None).expect("no deadline");
    match found.list.rows() {
        [] => Err(13),
        rows => Ok(rows.to_vec()),
    }
}

fn write_row(areas: &mut Areas, place: usize, beds: &[u8], cost: u64) {
    areas.beds.lent()[place * beds.len()..][..beds.len()].copy_from_slice(beds);
    areas.costs.lent()[place * 8..][..8].copy_from_slice(&cost.to_le_bytes());
}
