//! Join: the proved library beside the baseline, and beside its own check of both files and write of the joined region.

use crate::timing::{all_in_turn, ratio};
use rigbasen_tests::areas::Outputs;
use rigbasen_tests::baseline::joiner;
use rigbasen_tests::boundary;
use rigbasen_tests::files::describe;
use rigbasen_tests::generate::clinics::{self, Parameters};
use rigbasen_tests::generate::joins::{self, in_clinic, Pair};
use rigbasen_tests::generate::spelling::file_of;
use rigbasen_tests::joining::RESULT_BYTES;
use rigbasen_tests::lent::Lent;
use rigbasen_tests::limits::MOST_WRITTEN_BYTES;
use rigbasen_tests::random::Random;
use rigbasen_tests::reader;

const COLUMNS: &str = "| regions | bytes of both | joined bytes | proved, µs | baseline, µs | ratio | \
                       check of both and write, µs | join to these | repetitions |";

/// A clock is read around so many calls, since one of the smallest pair takes about as long as reading it.
const CALLS: u32 = 100;

pub fn print(given: &[(String, Vec<u8>)]) {
    println!("join: medians, and least times in brackets");
    println!();
    println!("{COLUMNS}");
    println!("|---|---|---|---|---|---|---|---|---|");
    let mut random = Random::of(1, "benchmark, join");
    print_row("the paper's, twice", &(describe::paper(), in_clinic(1, describe::paper())));
    print_row("8 patients and 20 tables each", &middle(&mut random));
    print_row("half of the most of everything each", &joins::halves());
    print_row("the longest joined file", &joins::longest());
    for (name, file) in given {
        match reader::read(file) {
            Ok(region) => {
                let partner = joins::partner(Some(&region), &mut random);
                print_row(&format!("{name}, and one patient"), &(region, partner));
            }
            Err(number) => println!("| {name} | refused with {number} | | | | | | | |"),
        }
    }
    println!();
}

/// Two clinics of four patients each, with four beds and a table over each two of a clinic.
fn middle(random: &mut Random) -> Pair {
    let parameters = Parameters { clinics: 2, patients: 4, beds: 4, density: 1.0, m: 64 };
    let mut regions = [(); 2].map(|()| clinics::region(parameters, random));
    joins::set_apart(&mut regions, random);
    regions.into()
}

fn print_row(name: &str, pair: &Pair) {
    let (first, second, lent) = (file_of(&pair.0), file_of(&pair.1), Lent::of(&joins::together(&pair.0, &pair.1)));
    let area = Outputs::patterned(MOST_WRITTEN_BYTES, RESULT_BYTES, 0);
    let (mut ours, mut other, mut apart) = (area.clone(), area.clone(), area);
    let numbers = (boundary::join(&first, &second, &mut ours), joiner::join(&first, &second, &mut other));
    assert!(numbers.0 == numbers.1 && ours == other, "{name}: two answers");
    if numbers.0 != 0 {
        return println!("| {name} | refused with {} | | | | | | | |", numbers.0);
    }
    let in_parts =
        |areas: &mut Outputs| boundary::check(&first) + boundary::check(&second) + boundary::write(&lent, areas);
    assert!(in_parts(&mut apart) == 0 && apart.counted() == ours.counted(), "{name}: two files");
    let ([proved, base, parts], repetitions) = all_in_turn([
        &mut || (0..CALLS).map(|_| boundary::join(&first, &second, &mut ours)).sum(),
        &mut || (0..CALLS).map(|_| joiner::join(&first, &second, &mut other)).sum(),
        &mut || (0..CALLS).map(|_| in_parts(&mut apart)).sum(),
    ]);
    let joined = ours.counted().len();
    let [proved, base, parts] = [proved, base, parts].map(|times| times.each_of(CALLS));
    println!(
        "| {name} | {} | {joined} | {} | {} | {} | {} | {} | {repetitions} × {CALLS} |",
        first.len() + second.len(),
        proved.short_text(),
        base.short_text(),
        ratio(&proved, &base),
        parts.short_text(),
        ratio(&proved, &parts),
    );
}
