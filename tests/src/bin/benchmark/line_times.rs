//! Line: the proved library beside the baseline, and beside its own check of the same file.

use crate::timing::{all_in_turn, ratio};
use rigbasen_tests::baseline::calls;
use rigbasen_tests::boundary;
use rigbasen_tests::compare::paper;
use rigbasen_tests::files::examples;
use rigbasen_tests::generate::{full_size, spelling, typed};
use rigbasen_tests::reader;

const COLUMNS: &str = "| file | bytes | members | line starts at | proved, µs | baseline, µs | ratio | check, µs | \
                       line to check | repetitions |";

/// A clock is read around so many calls, since one of the paper's file takes about as long as reading it.
const CALLS: u32 = 100;

/// Members that no table has, whatever the region: they do not rise.
const NOWHERE: &[u8] = b"(31 0)";

pub fn print(given: &[(String, Vec<u8>)]) {
    println!("line, members of the last table and of none: medians, and least times in brackets");
    println!();
    println!("{COLUMNS}");
    println!("|---|---|---|---|---|---|---|---|---|---|");
    print_rows("the paper's", paper::PRINTED.as_bytes());
    print_rows("examples/full_size.region", &examples::file("full_size"));
    print_rows("the longest, last table apart", &spelling::file_of(&full_size::longest_with_own_last_table()));
    for (name, file) in given {
        print_rows(name, file);
    }
    println!();
}

fn print_rows(name: &str, file: &[u8]) {
    let region = match reader::read(file) {
        Ok(region) => region,
        Err(number) => return println!("| {name} | refused with {number} | | | | | | | | |"),
    };
    if let Some(last) = region.tables.last() {
        print_row(name, file, &typed::text_of(&last.members));
    }
    print_row(name, file, NOWHERE);
}

fn print_row(name: &str, file: &[u8], typed: &[u8]) {
    let (mut ours, mut other) = ([0; 16], [0; 16]);
    let numbers = (boundary::line(file, typed, &mut ours), calls::line(file, typed, &mut other));
    assert!(numbers == (0, 0) && ours == other, "{name}: two answers");
    let start = u64::from_le_bytes(ours[..8].try_into().expect("8 bytes"));
    let ([proved, base, check], repetitions) = all_in_turn([
        &mut || (0..CALLS).map(|_| boundary::line(file, typed, &mut ours)).sum(),
        &mut || (0..CALLS).map(|_| calls::line(file, typed, &mut other)).sum(),
        &mut || (0..CALLS).map(|_| boundary::check(file)).sum(),
    ]);
    let [proved, base, check] = [proved, base, check].map(|times| times.each_of(CALLS));
    let (size, members) = (file.len(), String::from_utf8_lossy(typed));
    let (to_base, to_check) = (ratio(&proved, &base), ratio(&proved, &check));
    println!(
        "| {name} | {size} | {members} | {start} | {} | {} | {to_base} | {} | {to_check} | {repetitions} × {CALLS} |",
        proved.short_text(),
        base.short_text(),
        check.short_text(),
    );
}
