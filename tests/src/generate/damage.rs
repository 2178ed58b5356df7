//! Random damage to good files. Nothing is promised of the result: it may even be good.

use crate::generate::spelling::{lines_of, with_right_sum};
use crate::limits::{HIGHEST_ENTRY, HIGHEST_NUMBER};
use crate::random::Random;

const FILE_BYTES: &[u8] = b"0123456789() -abcdefghinoprstz\n";
/// Numbers that stand near a limit.
const NUMBERS: [u64; 15] = [0, 1, 2, 3, 4, 5, 15, 16, 17, 31, 32, 33, 64, 65, 4_096];
const HIGH_NUMBERS: [u64; 4] = [HIGHEST_ENTRY, HIGHEST_ENTRY + 1, HIGHEST_NUMBER, HIGHEST_NUMBER + 1];

/// The file after one to three damages, its sum made right again in most cases.
pub fn damaged(good: &[u8], random: &mut Random) -> Vec<u8> {
    let mut file = good.to_vec();
    for _ in 0..random.between(1, 3) {
        damage_once(&mut file, random);
    }
    if random.chance(75) {
        return with_right_sum(&file);
    }
    file
}

fn damage_once(file: &mut Vec<u8>, random: &mut Random) {
    if file.is_empty() {
        return;
    }
    let place = random.below(file.len());
    match random.below(9) {
        0 => file[place] = random.pick(FILE_BYTES),
        1 => file[place] = random.number() as u8,
        2 => file.insert(place, random.pick(FILE_BYTES)),
        3 => drop(file.remove(place)),
        4 => file.truncate(place),
        5 => cut_out(file, place, random),
        6 | 7 => another_number(file, place, random),
        _ => move_lines(file, random),
    }
}

fn cut_out(file: &mut Vec<u8>, place: usize, random: &mut Random) {
    let end = (place + random.between(1, 30) as usize).min(file.len());
    file.drain(place..end);
}

/// The first number from a place on becomes one that stands near a limit, or a hyphen.
fn another_number(file: &mut Vec<u8>, place: usize, random: &mut Random) {
    let Some(start) = (place..file.len()).find(|at| file[*at].is_ascii_digit()) else { return };
    let end = (start..file.len()).find(|at| !file[*at].is_ascii_digit()).unwrap_or(file.len());
    let place = random.below(NUMBERS.len() + HIGH_NUMBERS.len() + 1);
    let number = NUMBERS.iter().chain(&HIGH_NUMBERS).nth(place);
    file.splice(start..end, number.map_or("-".to_string(), u64::to_string).bytes());
}

/// Two lines swapped, or a line doubled or dropped.
fn move_lines(file: &mut Vec<u8>, random: &mut Random) {
    let mut lines = lines_of(file);
    let (one, other) = (random.below(lines.len()), random.below(lines.len()));
    match random.below(3) {
        0 => lines.swap(one, other),
        1 => lines.insert(one, lines[other]),
        _ => drop(lines.remove(one)),
    }
    *file = lines.concat();
}

/// Random bytes, most of them such as stand in files.
pub fn random_bytes(random: &mut Random) -> Vec<u8> {
    let longest = random.pick(&[4, 40, 400]);
    let length = random.below(longest);
    let mut bytes: Vec<u8> = (0..length).map(|_| random.pick(FILE_BYTES)).collect();
    if random.chance(30) {
        bytes.splice(0..0, *b"(region 1 0 1)\n");
    }
    if random.chance(30) {
        bytes.push(random.number() as u8);
    }
    bytes
}
