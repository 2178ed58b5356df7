//! Parents: the proved library beside the baseline, and beside its own check and write; and what list gains by it.

use crate::list_times::{file_of as file_of_shape, Shape, REGIONS, SEEDS};
use crate::timing::{all_in_turn, in_turn, ratio};
use rigbasen_tests::areas::{Areas, Lengths, Outputs};
use rigbasen_tests::baseline::held::Held;
use rigbasen_tests::baseline::parent_maker;
use rigbasen_tests::baseline::reader::read;
use rigbasen_tests::baseline::search;
use rigbasen_tests::boundary;
use rigbasen_tests::compare::paper;
use rigbasen_tests::compare::parents::RESULT_BYTES;
use rigbasen_tests::files::examples;
use rigbasen_tests::generate::{full_size, spelling};
use rigbasen_tests::lent::Lent;
use rigbasen_tests::limits::MOST_WRITTEN_BYTES;
use rigbasen_tests::reader;
use std::time::{Duration, Instant};

const COLUMNS: &str = "| file | bytes | written bytes | proved, µs | baseline, µs | ratio | check and write, µs | \
                       parents to these | repetitions |";

/// A clock is read around so many calls, since one of the paper's file takes about as long as reading it.
const CALLS: u32 = 100;

pub fn print(given: &[(String, Vec<u8>)]) {
    println!("parents: medians, and least times in brackets");
    println!();
    println!("{COLUMNS}");
    println!("|---|---|---|---|---|---|---|---|---|");
    print_row("the paper's", paper::PRINTED.as_bytes());
    for name in ["wrong_parents", "chained", "full_size"] {
        print_row(&format!("examples/{name}.region"), &examples::file(name));
    }
    print_row("the longest file", &spelling::file_of(&full_size::longest_region()));
    for (name, file) in given {
        print_row(name, file);
    }
    println!();
}

/// The library's check and write are those of the file that is written.
fn print_row(name: &str, file: &[u8]) {
    let area = Outputs::patterned(MOST_WRITTEN_BYTES, RESULT_BYTES, 0);
    let (mut ours, mut other, mut apart) = (area.clone(), area.clone(), area);
    let numbers = (boundary::parents(file, &mut ours), parent_maker::parents(file, &mut other));
    assert!(numbers.0 == numbers.1 && ours == other, "{name}: two answers");
    if numbers.0 != 0 {
        return println!("| {name} | refused with {} | | | | | | | |", numbers.0);
    }
    let made = ours.counted().to_vec();
    let lent = Lent::of(&reader::read(&made).expect("a good file"));
    let in_parts = |areas: &mut Outputs| boundary::check(&made) + boundary::write(&lent, areas);
    assert!(in_parts(&mut apart) == 0 && apart == ours, "{name}: two files");
    let ([proved, base, parts], repetitions) = all_in_turn([
        &mut || (0..CALLS).map(|_| boundary::parents(file, &mut ours)).sum(),
        &mut || (0..CALLS).map(|_| parent_maker::parents(file, &mut other)).sum(),
        &mut || (0..CALLS).map(|_| in_parts(&mut apart)).sum(),
    ]);
    let [proved, base, parts] = [proved, base, parts].map(|times| times.each_of(CALLS));
    println!(
        "| {name} | {} | {} | {} | {} | {} | {} | {} | {repetitions} × {CALLS} |",
        file.len(),
        made.len(),
        proved.short_text(),
        base.short_text(),
        ratio(&proved, &base),
        parts.short_text(),
        ratio(&proved, &parts),
    );
}

/// The first four kinds of regions as they are made, with every patient's parent the one before it, and after parents of that.
pub fn print_lists(limit: Duration) {
    println!("list by the proved library, before and after parents: medians, and least times in brackets");
    println!();
    println!("| region | seed | rows | as made, µs | chained, s | after parents, µs | parents itself, µs |");
    println!("|---|---|---|---|---|---|---|");
    for shape in &REGIONS[..4] {
        for seed in SEEDS {
            print_list(*shape, seed, limit);
        }
    }
    println!();
}

fn print_list(shape: Shape, seed: u64, limit: Duration) {
    let (made, chained) = (file_of_shape(shape, seed, false), file_of_shape(shape, seed, true));
    let mut areas = Outputs::patterned(MOST_WRITTEN_BYTES, RESULT_BYTES, 0);
    assert_eq!(boundary::parents(&chained, &mut areas), 0, "a good file");
    let after = areas.counted().to_vec();
    let blank = Areas::patterned(Lengths::asked(shape.4, shape.0 as usize * shape.1 as usize), 0);
    let (mut one, mut other, mut third) = (blank.clone(), blank.clone(), blank);
    let (as_made, afterwards, _) = in_turn(|| boundary::list(&made, &mut one), || boundary::list(&after, &mut other));
    assert!(one == other, "two lists");
    let before = if in_time(&chained, limit) {
        let ([times], _) = all_in_turn([&mut || boundary::list(&chained, &mut third)]);
        assert!(third == one, "two lists");
        times.long_text()
    } else {
        format!("over {}", limit.as_secs())
    };
    let ([itself], _) = all_in_turn([&mut || (0..CALLS).map(|_| boundary::parents(&chained, &mut areas)).sum()]);
    let rows = u64::from_le_bytes(one.result.contents()[..8].try_into().expect("8 bytes"));
    println!(
        "| {shape:?} | {seed} | {rows} | {} | {before} | {} | {} |",
        as_made.text(),
        afterwards.text(),
        itself.each_of(CALLS).short_text()
    );
}

/// Does the baseline find the list within the limit?
fn in_time(file: &[u8], limit: Duration) -> bool {
    let mut held = Held::blank();
    assert_eq!(read(file, &mut held), Ok(()), "a good file");
    search::list(&held, Some(Instant::now() + limit)).is_some()
}
