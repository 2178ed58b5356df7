//! List of a region with half of its patients fixed, beside the same region with all of them free.

use crate::list_times::{region_of, Shape, REGIONS, SEEDS};
use crate::timing::{all_in_turn, ratio, Times};
use rigbasen_tests::areas::{Areas, Lengths};
use rigbasen_tests::baseline::calls;
use rigbasen_tests::baseline::held::Held;
use rigbasen_tests::baseline::reader::read;
use rigbasen_tests::baseline::rows::Row;
use rigbasen_tests::baseline::search;
use rigbasen_tests::boundary;
use rigbasen_tests::generate::spelling;
use std::time::{Duration, Instant};

const COLUMNS: &str = "| region | seed | patients | rows | beds tried | proved, µs | baseline, µs | ratio | \
                       free to fixed, proved | free to fixed, baseline | repetitions |";

/// Prints two rows for each region. One for which the baseline takes longer than the limit, or finds no plan, has no times.
pub fn print(limit: Duration) {
    println!("list, half of the patients fixed beside all free: medians, and least times in brackets");
    println!();
    println!("Every second patient keeps the bed of the free region's last row; free to fixed is how many times longer the free one takes.");
    println!();
    println!("{COLUMNS}");
    println!("|---|---|---|---|---|---|---|---|---|---|---|");
    for shape in REGIONS {
        for seed in SEEDS {
            print_rows(shape, seed, limit);
        }
    }
    println!();
}

fn print_rows(shape: Shape, seed: u64, limit: Duration) {
    let mut region = region_of(shape, seed);
    let free = Call::of(spelling::file_of(&region), limit);
    let Some((mut free, present)) = free.and_then(|free| free.last.map(|row| (free, row))) else {
        return println!("| {shape:?} | {seed} | all free | no plan in {} s | | | | | | | |", limit.as_secs());
    };
    for (patient, bed) in region.patients.iter_mut().zip(present.beds).skip(1).step_by(2) {
        patient.fixed = Some(bed.into());
    }
    let Some(mut fixed) = Call::of(spelling::file_of(&region), limit) else {
        return println!("| {shape:?} | {seed} | half fixed | no plan in {} s | | | | | | | |", limit.as_secs());
    };
    let ([proved_free, proved, base_free, base], repetitions) = all_in_turn([
        &mut || boundary::list(&free.file, &mut free.proved),
        &mut || boundary::list(&fixed.file, &mut fixed.proved),
        &mut || calls::list(&free.file, &mut free.base),
        &mut || calls::list(&fixed.file, &mut fixed.base),
    ]);
    let row = |patients: &str, call: &Call, one: &Times, other: &Times| {
        let (texts, times) = (format!("{} | {}", one.text(), other.text()), ratio(one, other));
        format!("| {shape:?} | {seed} | {patients} | {} | {} | {texts} | {times} |", call.rows, call.beds_tried)
    };
    let (by_proved, by_base) = (ratio(&proved_free, &proved), ratio(&base_free, &base));
    println!("{} | | {repetitions} |", row("all free", &free, &proved_free, &base_free));
    println!("{} {by_proved} | {by_base} | {repetitions} |", row("half fixed", &fixed, &proved, &base));
}

/// A file, the areas that both programs write, how many rows there are and the last, and how many beds the baseline tried.
struct Call {
    file: Vec<u8>,
    proved: Areas,
    base: Areas,
    rows: usize,
    last: Option<Row>,
    beds_tried: u64,
}

impl Call {
    /// Nothing where the baseline takes longer than the limit. Both programs must give the same.
    fn of(file: Vec<u8>, limit: Duration) -> Option<Call> {
        let mut held = Held::blank();
        assert_eq!(read(&file, &mut held), Ok(()), "a good file");
        let found = search::list(&held, Some(Instant::now() + limit))?;
        let blank = Areas::patterned(Lengths::asked(held.m as u64, held.patient_count), 0);
        let (mut proved, mut base) = (blank.clone(), blank);
        let numbers = (boundary::list(&file, &mut proved), calls::list(&file, &mut base));
        assert!(numbers.0 == numbers.1 && proved == base, "two answers");
        let (rows, last) = (found.list.rows().len(), found.list.rows().last().copied());
        Some(Call { file, proved, base, rows, last, beds_tried: found.beds_tried })
    }
}
