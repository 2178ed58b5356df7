//! Check: the proved library beside the baseline reader.

use crate::timing::{in_turn, ratio};
use rigbasen_tests::compare::paper;
use rigbasen_tests::generate::full_size;
use rigbasen_tests::random::Random;
use rigbasen_tests::{baseline, boundary};
use std::hint::black_box;

const COLUMNS: &str = "| file | bytes | number | proved, µs | baseline, µs | ratio | repetitions |";

pub fn print(given: &[(String, Vec<u8>)]) {
    println!("check: medians, and least times in brackets");
    println!();
    println!("{COLUMNS}");
    println!("|---|---|---|---|---|---|---|");
    let mut random = Random::of(1, "benchmark, check");
    print_row("laid out, too many entries", &full_size::laid_out_file(65_535, &mut random));
    print_row("good, 32 patients, 4,096 entries", &full_size::good_file(&mut random));
    print_row("the paper's", paper::PRINTED.as_bytes());
    for (name, file) in given {
        print_row(name, file);
    }
    println!();
}

fn print_row(name: &str, file: &[u8]) {
    let number = boundary::check(file);
    assert_eq!(number, baseline::calls::check(file), "{name}: two numbers");
    let (proved, base, repetitions) =
        in_turn(|| boundary::check(black_box(file)), || baseline::calls::check(black_box(file)));
    let (size, times) = (file.len(), ratio(&proved, &base));
    println!("| {name} | {size} | {number} | {} | {} | {times} | {repetitions} |", proved.text(), base.text());
}
