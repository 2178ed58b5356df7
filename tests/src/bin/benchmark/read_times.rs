//! Read: the proved library beside the baseline, and beside its own check of the same file.

use crate::timing::{all_in_turn, ratio};
use rigbasen_tests::areas::Arrays;
use rigbasen_tests::baseline::array_reader;
use rigbasen_tests::boundary;
use rigbasen_tests::compare::paper;
use rigbasen_tests::files::examples;
use rigbasen_tests::generate::{full_size, spelling};
use rigbasen_tests::lent::Lent;
use rigbasen_tests::reading::MOST_BYTES;

const COLUMNS: &str = "| file | bytes | bytes of the arrays | proved, µs | baseline, µs | ratio | check, µs | \
                       read to check | repetitions |";

/// A clock is read around so many calls, since one of the paper's file takes about as long as reading it.
const CALLS: u32 = 100;

pub fn print(given: &[(String, Vec<u8>)]) {
    println!("read: medians, and least times in brackets");
    println!();
    println!("{COLUMNS}");
    println!("|---|---|---|---|---|---|---|---|---|");
    print_row("the paper's", paper::PRINTED.as_bytes());
    print_row("examples/full_size.region", &examples::file("full_size"));
    print_row("the longest file", &spelling::file_of(&full_size::longest_region()));
    for (name, file) in given {
        print_row(name, file);
    }
    println!();
}

fn print_row(name: &str, file: &[u8]) {
    let areas = Arrays::patterned(MOST_BYTES, 0);
    let (mut ours, mut other) = (areas.clone(), areas);
    let numbers = (boundary::read(file, &mut ours), array_reader::read(file, &mut other));
    assert!(numbers.0 == numbers.1 && ours == other, "{name}: two answers");
    if numbers.0 != 0 {
        return println!("| {name} | refused with {} | | | | | | | |", numbers.0);
    }
    let lent = Lent::of_read(&ours).expect("a file that was read");
    let arrays: usize = [&lent.patients, &lent.tables, &lent.entries].map(|area| area.contents().len()).iter().sum();
    let ([proved, base, check], repetitions) = all_in_turn([
        &mut || (0..CALLS).map(|_| boundary::read(file, &mut ours)).sum(),
        &mut || (0..CALLS).map(|_| array_reader::read(file, &mut other)).sum(),
        &mut || (0..CALLS).map(|_| boundary::check(file)).sum(),
    ]);
    let [proved, base, check] = [proved, base, check].map(|times| times.each_of(CALLS));
    println!(
        "| {name} | {} | {arrays} | {} | {} | {} | {} | {} | {repetitions} × {CALLS} |",
        file.len(),
        proved.short_text(),
        base.short_text(),
        ratio(&proved, &base),
        check.short_text(),
        ratio(&proved, &check),
    );
}
