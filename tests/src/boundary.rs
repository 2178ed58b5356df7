//! The proved library's calls from C, each behind a safe wrapper.

use crate::areas::{Areas, Arrays, Outputs};
use crate::lent::Lent;

extern "C" {
    fn rigbasen_check(file: *const u8, file_length: usize) -> u64;

    fn rigbasen_price(
        file: *const u8,
        file_length: usize,
        plan: *const u8,
        plan_length: usize,
        result: *mut u8,
        result_length: usize,
    ) -> u64;

    fn rigbasen_line(
        file: *const u8,
        file_length: usize,
        typed: *const u8,
        typed_length: usize,
        result: *mut u8,
        result_length: usize,
    ) -> u64;

    fn rigbasen_list(
        file: *const u8,
        file_length: usize,
        beds: *mut u8,
        beds_length: usize,
        costs: *mut u8,
        costs_length: usize,
        result: *mut u8,
        result_length: usize,
    ) -> u64;

    fn rigbasen_sheet(
        file: *const u8,
        file_length: usize,
        clinic: u64,
        beds: *mut u8,
        beds_length: usize,
        costs: *mut u8,
        costs_length: usize,
        result: *mut u8,
        result_length: usize,
    ) -> u64;

    fn rigbasen_write(
        patients: *const u8,
        patients_length: usize,
        tables: *const u8,
        tables_length: usize,
        entries: *const u8,
        entries_length: usize,
        m: u64,
        output: *mut u8,
        output_length: usize,
        result: *mut u8,
        result_length: usize,
    ) -> u64;

    fn rigbasen_join(
        first: *const u8,
        first_length: usize,
        second: *const u8,
        second_length: usize,
        output: *mut u8,
        output_length: usize,
        result: *mut u8,
        result_length: usize,
    ) -> u64;

    fn rigbasen_parents(
        file: *const u8,
        file_length: usize,
        output: *mut u8,
        output_length: usize,
        result: *mut u8,
        result_length: usize,
    ) -> u64;

    fn rigbasen_read(
        file: *const u8,
        file_length: usize,
        patients: *mut u8,
        patients_length: usize,
        tables: *mut u8,
        tables_length: usize,
        entries: *mut u8,
        entries_length: usize,
        result: *mut u8,
        result_length: usize,
    ) -> u64;

    fn rigbasen_version() -> u64;

    /// Of the trial's archive: line's entry in Rattle, which hands back a part of the file. The trial lays that part down.
    fn rigbasen_trial_line(
        file: *const u8,
        file_length: usize,
        typed: *const u8,
        typed_length: usize,
        handed: *mut HandedBack,
    ) -> u64;
}

/// A part of memory.
#[derive(Clone, Copy, Debug, PartialEq)]
pub struct Part {
    pub address: usize,
    pub length: usize,
}

/// A part as the trial lays it down: the address of its first byte, and its length.
#[repr(C)]
struct HandedBack {
    bytes: *const u8,
    length: usize,
}

/// No file lies here, so that a trial which lays down no part is seen.
static NOWHERE: [u8; 1] = [0];

/// The number of line's entry in Rattle, and the very part that it hands back.
pub fn line_part(file: &[u8], typed: &[u8]) -> (u64, Option<Part>) {
    let mut handed = HandedBack { bytes: NOWHERE.as_ptr(), length: 0 };
    // Each pointer and length are those of one slice, and the part is written to a place of its own.
    let number = unsafe { rigbasen_trial_line(file.as_ptr(), file.len(), typed.as_ptr(), typed.len(), &mut handed) };
    let part = Part { address: handed.bytes as usize, length: handed.length };
    (number, (handed.bytes != NOWHERE.as_ptr()).then_some(part))
}

/// Check's number of a file.
pub fn check(file: &[u8]) -> u64 {
    // The pointer and the length are those of one slice.
    unsafe { rigbasen_check(file.as_ptr(), file.len()) }
}

/// Price's number; the result area has two numbers, allowed and total.
pub fn price(file: &[u8], plan: &[u8], result: &mut [u8]) -> u64 {
    // Each pointer and length are those of one slice, and the slices do not overlap.
    unsafe { rigbasen_price(file.as_ptr(), file.len(), plan.as_ptr(), plan.len(), result.as_mut_ptr(), result.len()) }
}

/// Line's number; the result area has two numbers, where the line starts in the file and its length.
pub fn line(file: &[u8], typed: &[u8], result: &mut [u8]) -> u64 {
    // Each pointer and length are those of one slice, and the slices do not overlap.
    unsafe { rigbasen_line(file.as_ptr(), file.len(), typed.as_ptr(), typed.len(), result.as_mut_ptr(), result.len()) }
}

/// List's number; the result area has one number, the row count.
pub fn list(file: &[u8], areas: &mut Areas) -> u64 {
    let (beds, costs, result) = (areas.beds.lent(), areas.costs.lent(), areas.result.lent());
    // Each pointer and length are those of one slice, and the slices do not overlap.
    unsafe {
        rigbasen_list(
            file.as_ptr(),
            file.len(),
            beds.as_mut_ptr(),
            beds.len(),
            costs.as_mut_ptr(),
            costs.len(),
            result.as_mut_ptr(),
            result.len(),
        )
    }
}

/// Sheet's number; the result area has one number, the row count.
pub fn sheet(file: &[u8], clinic: u64, areas: &mut Areas) -> u64 {
    let (beds, costs, result) = (areas.beds.lent(), areas.costs.lent(), areas.result.lent());
    // Each pointer and length are those of one slice, and the slices do not overlap.
    unsafe {
        rigbasen_sheet(
            file.as_ptr(),
            file.len(),
            clinic,
            beds.as_mut_ptr(),
            beds.len(),
            costs.as_mut_ptr(),
            costs.len(),
            result.as_mut_ptr(),
            result.len(),
        )
    }
}

/// Write's number; the result area has one number, the byte count.
pub fn write(lent: &Lent, areas: &mut Outputs) -> u64 {
    let (patients, tables, entries) = (lent.patients.contents(), lent.tables.contents(), lent.entries.contents());
    let (output, result) = (areas.output.lent(), areas.result.lent());
    // Each pointer and length are those of one slice, and the slices do not overlap.
    unsafe {
        rigbasen_write(
            patients.as_ptr(),
            patients.len(),
            tables.as_ptr(),
            tables.len(),
            entries.as_ptr(),
            entries.len(),
            lent.m,
            output.as_mut_ptr(),
            output.len(),
            result.as_mut_ptr(),
            result.len(),
        )
    }
}

/// Join's number; the result area has two numbers, the byte count and which file is refused.
pub fn join(first: &[u8], second: &[u8], areas: &mut Outputs) -> u64 {
    let (output, result) = (areas.output.lent(), areas.result.lent());
    // Each pointer and length are those of one slice, and the slices do not overlap, but for the two files, which may be one.
    unsafe {
        rigbasen_join(
            first.as_ptr(),
            first.len(),
            second.as_ptr(),
            second.len(),
            output.as_mut_ptr(),
            output.len(),
            result.as_mut_ptr(),
            result.len(),
        )
    }
}

/// Parents' number; the result area has one number, the byte count.
pub fn parents(file: &[u8], areas: &mut Outputs) -> u64 {
    let (output, result) = (areas.output.lent(), areas.result.lent());
    // Each pointer and length are those of one slice, and the slices do not overlap.
    unsafe {
        rigbasen_parents(
            file.as_ptr(),
            file.len(),
            output.as_mut_ptr(),
            output.len(),
            result.as_mut_ptr(),
            result.len(),
        )
    }
}

/// Read's number; the result area has four numbers, how many patients, tables, plans wanted and entries there are.
pub fn read(file: &[u8], areas: &mut Arrays) -> u64 {
    let [patients, tables, entries, result] = areas.each().map(|area| area.lent());
    // Each pointer and length are those of one slice, and the slices do not overlap.
    unsafe {
        rigbasen_read(
            file.as_ptr(),
            file.len(),
            patients.as_mut_ptr(),
            patients.len(),
            tables.as_mut_ptr(),
            tables.len(),
            entries.as_mut_ptr(),
            entries.len(),
            result.as_mut_ptr(),
            result.len(),
        )
    }
}

/// The library's version as a number.
pub fn version() -> u64 {
    // Nothing is lent.
    unsafe { rigbasen_version() }
}
