//! List: the proved library beside the baseline's reading and search.

use crate::timing::{in_turn, ratio};
use rigbasen_tests::areas::{Areas, Lengths};
use rigbasen_tests::baseline::calls;
use rigbasen_tests::baseline::held::Held;
use rigbasen_tests::baseline::reader::read;
use rigbasen_tests::baseline::search;
use rigbasen_tests::boundary;
use rigbasen_tests::generate::clinics::{self, Parameters};
use rigbasen_tests::generate::{parents, spelling};
use rigbasen_tests::random::Random;
use rigbasen_tests::region::Region;
use std::time::{Duration, Instant};

pub const SEEDS: [u64; 3] = [1, 2, 3];

/// Clinics, patients a clinic, beds a patient, density, m.
pub type Shape = (u64, u64, u64, f64, u64);

/// The first four are also run chained.
pub const REGIONS: [Shape; 7] = [
    (8, 4, 4, 1.0, 10),
    (8, 4, 4, 1.0, 64),
    (4, 8, 6, 0.4, 64),
    (16, 2, 8, 1.0, 64),
    (2, 12, 6, 0.2, 10),
    (1, 16, 5, 0.25, 10),
    (1, 20, 4, 0.15, 64),
];

/// Regions that differ in one thing, to see how the time grows with it.
const GROWTH: [(&str, [Shape; 4]); 4] = [
    ("patients of one tree", [(1, 5, 4, 0.3, 10), (1, 10, 4, 0.3, 10), (1, 15, 4, 0.3, 10), (1, 18, 4, 0.3, 10)]),
    ("clinics", [(1, 4, 4, 1.0, 10), (2, 4, 4, 1.0, 10), (4, 4, 4, 1.0, 10), (8, 4, 4, 1.0, 10)]),
    ("beds", [(4, 4, 2, 1.0, 10), (4, 4, 4, 1.0, 10), (4, 4, 8, 1.0, 10), (4, 4, 12, 1.0, 10)]),
    ("m", [(8, 4, 4, 1.0, 1), (8, 4, 4, 1.0, 4), (8, 4, 4, 1.0, 16), (8, 4, 4, 1.0, 64)]),
];

/// Prints a row for each region; a case for which the baseline takes longer than the limit is not
/// given to the proved library.
pub fn print(given: &[(String, Vec<u8>)], limit: Duration) {
    println!("list: medians, and least times in brackets; reading counts on both sides");
    println!();
    println!("| region | seed | parents | rows | beds tried | proved, µs | baseline, µs | ratio | repetitions |");
    println!("|---|---|---|---|---|---|---|---|---|");
    for region in REGIONS {
        for seed in SEEDS {
            print_row(&format!("{region:?} | {seed} | as made"), &file_of(region, seed, false), limit);
        }
    }
    for region in &REGIONS[..4] {
        for seed in SEEDS {
            print_row(&format!("{region:?} | {seed} | chained"), &file_of(*region, seed, true), limit);
        }
    }
    for (name, file) in given {
        print_row(&format!("{name} | | given"), file, limit);
    }
    for (what, regions) in GROWTH {
        for region in regions {
            print_row(&format!("{region:?} | 1 | more {what}"), &file_of(region, 1, false), limit);
        }
    }
    println!();
}

/// A region of a shape, no bed fixed.
pub fn region_of(shape: Shape, seed: u64) -> Region {
    let (clinics, patients, beds, density, m) = shape;
    let mut random = Random::of(seed, &format!("benchmark, list {shape:?}"));
    clinics::region(Parameters { clinics, patients, beds, density, m }, &mut random)
}

/// Its file, with parents as they are made or with every patient's parent the one before it.
pub fn file_of(shape: Shape, seed: u64, chained: bool) -> Vec<u8> {
    let made = region_of(shape, seed);
    spelling::file_of(&if chained { parents::chained(&made) } else { made })
}

fn print_row(name: &str, file: &[u8], limit: Duration) {
    let mut held = Held::blank();
    if let Err(number) = read(file, &mut held) {
        println!("| {name} | refused with {number} | | | | | |");
        return;
    }
    let Some(found) = search::list(&held, Some(Instant::now() + limit)) else {
        println!("| {name} | | | not run | over {} s | | |", limit.as_secs());
        return;
    };
    let blank = Areas::patterned(Lengths::asked(held.m as u64, held.patient_count), 0);
    let (mut ours, mut other) = (blank.clone(), blank);
    let numbers = (boundary::list(file, &mut ours), calls::list(file, &mut other));
    assert!(numbers.0 == numbers.1 && ours == other, "{name}: two answers");
    let (proved, base, repetitions) = in_turn(|| boundary::list(file, &mut ours), || calls::list(file, &mut other));
    let (rows, tried, times) = (found.list.rows().len(), found.beds_tried, ratio(&proved, &base));
    println!("| {name} | {rows} | {tried} | {} | {} | {times} | {repetitions} |", proved.text(), base.text());
}
