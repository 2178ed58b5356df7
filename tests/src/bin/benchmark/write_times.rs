//! Write: the proved library beside the baseline's writer.

use crate::timing::{in_turn, ratio};
use rigbasen_tests::areas::Outputs;
use rigbasen_tests::baseline::writer;
use rigbasen_tests::boundary;
use rigbasen_tests::compare::paper;
use rigbasen_tests::files::examples;
use rigbasen_tests::generate::{full_size, spelling};
use rigbasen_tests::lent::Lent;
use rigbasen_tests::limits::MOST_WRITTEN_BYTES;
use rigbasen_tests::reader;

/// A clock is read around so many calls, since one of the paper's region takes about as long as reading it.
const CALLS: u32 = 100;

pub fn print(given: &[(String, Vec<u8>)]) {
    println!("write, the region of each file: medians, and least times in brackets");
    println!();
    println!("| region | bytes | proved, µs | baseline, µs | ratio | repetitions |");
    println!("|---|---|---|---|---|---|");
    print_row("the paper's", paper::PRINTED.as_bytes());
    print_row("examples/full_size.region", &examples::file("full_size"));
    print_row("the longest file", &spelling::file_of(&full_size::longest_region()));
    for (name, file) in given {
        print_row(name, file);
    }
    println!();
}

fn print_row(name: &str, file: &[u8]) {
    let lent = match reader::read(file) {
        Ok(region) => Lent::of(&region),
        Err(number) => return println!("| {name} | refused with {number} | | | | |"),
    };
    let area = Outputs::patterned(MOST_WRITTEN_BYTES, 8, 0);
    let (mut ours, mut other) = (area.clone(), area);
    let numbers = (boundary::write(&lent, &mut ours), writer::write(&lent, &mut other));
    assert!(numbers == (0, 0) && ours == other && ours.counted() == file, "{name}: two answers");
    let (proved, base, repetitions) = in_turn(
        || (0..CALLS).map(|_| boundary::write(&lent, &mut ours)).sum(),
        || (0..CALLS).map(|_| writer::write(&lent, &mut other)).sum(),
    );
    let (proved, base) = (proved.each_of(CALLS), base.each_of(CALLS));
    let (size, times) = (file.len(), ratio(&proved, &base));
    println!(
        "| {name} | {size} | {} | {} | {times} | {repetitions} × {CALLS} |",
        proved.short_text(),
        base.short_text()
    );
}
