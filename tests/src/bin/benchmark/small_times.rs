//! Every call of a file with the paper's, which is so small that what a call does whatever the file is all of its time.

use crate::timing::{in_turn, ratio};
use rigbasen_tests::areas::{Areas, Arrays, Lengths};
use rigbasen_tests::baseline::{array_reader, calls};
use rigbasen_tests::boundary;
use rigbasen_tests::compare::paper;
use rigbasen_tests::reading::MOST_BYTES;

/// A clock is read around so many calls, since one takes about as long as reading it.
const CALLS: u32 = 100;

pub fn print() {
    let file = paper::PRINTED.as_bytes();
    let lent = Areas::patterned(Lengths::asked(3, 2), 0);
    let (mut ours, mut other) = (lent.clone(), lent);
    let (mut result, mut others) = ([0; 16], [0; 16]);
    println!("every call of the paper's file: medians, and least times in brackets");
    println!();
    println!("| call | proved, µs | baseline, µs | ratio | repetitions |");
    println!("|---|---|---|---|---|");
    print_row("check", || boundary::check(file), || calls::check(file));
    print_row("list", || boundary::list(file, &mut ours), || calls::list(file, &mut other));
    print_row("sheet", || boundary::sheet(file, 0, &mut ours), || calls::sheet(file, 0, &mut other));
    print_row("price", || boundary::price(file, &[1, 0], &mut result), || calls::price(file, &[1, 0], &mut others));
    print_row("line", || boundary::line(file, b"(0 1)", &mut result), || calls::line(file, b"(0 1)", &mut others));
    let arrays = Arrays::patterned(MOST_BYTES, 0);
    let (mut read, mut base_read) = (arrays.clone(), arrays);
    print_row("read", || boundary::read(file, &mut read), || array_reader::read(file, &mut base_read));
    assert!(ours == other && result == others && read == base_read, "the paper's file: two answers");
    println!();
}

fn print_row(call: &str, mut one: impl FnMut() -> u64, mut other: impl FnMut() -> u64) {
    assert_eq!((one(), other()), (0, 0), "{call}: the paper's file is good");
    let (proved, base, repetitions) = in_turn(|| (0..CALLS).map(|_| one()).sum(), || (0..CALLS).map(|_| other()).sum());
    let (proved, base) = (proved.each_of(CALLS), base.each_of(CALLS));
    let times = ratio(&proved, &base);
    println!("| {call} | {} | {} | {times} | {repetitions} × {CALLS} |", proved.short_text(), base.short_text());
}
