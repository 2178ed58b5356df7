//! Lent regions with faults that no file can have: areas that are not whole, counts that do not add up, numbers that
//! are too large for a file or that a cut to fewer bits would mistake for good ones.

use crate::areas::Area;
use crate::files::describe::{chain, flat_table, full_table};
use crate::generate::faults::sound_region;
use crate::generate::{full_size, small};
use crate::lent::{Lent, Numbers, ENTRY_COUNT, NONE, PATIENT_BYTES};
use crate::limits::HIGHEST_ENTRY;
use crate::random::Random;
use crate::region::{Patient, Region, Table};

/// Any number: a small one, a large one, or none.
pub fn any_number(random: &mut Random) -> u64 {
    match random.below(4) {
        0 => random.between(0, 40),
        1 => NONE - random.between(0, 2),
        2 => mistaken_for(random.between(0, 16), random),
        _ => random.number() << random.below(17),
    }
}

/// Lent with any numbers where a table has no more members.
pub fn lent(region: &Region, random: &mut Random) -> Lent {
    Numbers::of(region, || any_number(random)).lent()
}

/// A number that has a good one in its low bits, or stands beside a power of two.
fn mistaken_for(good: u64, random: &mut Random) -> u64 {
    let power = 1u64 << random.pick(&[4, 5, 8, 16, 31, 32, 32, 32, 33, 48, 63]);
    match random.below(6) {
        0..=2 => power.wrapping_add(good),
        3 => power - 1,
        4 => power - 2,
        _ => NONE - random.between(0, 3),
    }
}

/// A sound region in which one number has become another.
pub fn one_large_number(random: &mut Random) -> Lent {
    let mut numbers = Numbers::of(&sound_region(random), || any_number(random));
    let (patient, table) = (random.below(numbers.patients.len()), random.below(numbers.tables.len()));
    let entry = random.below(numbers.entries.len());
    let place = match random.below(16) {
        0..=1 => &mut numbers.m,
        2..=7 => &mut numbers.patients[patient][random.below(4)],
        8..=12 => &mut numbers.tables[table][random.below(6)],
        _ => &mut numbers.entries[entry],
    };
    *place = mistaken_for(*place, random);
    numbers.lent()
}

/// Areas that are not whole, or counts that do not add up to the entries lent.
pub fn not_whole(region: &Region, random: &mut Random) -> Lent {
    let mut lent = lent(region, random);
    match random.below(if region.tables.is_empty() { 3 } else { 6 }) {
        0 => lent.patients = another_length(&lent.patients, PATIENT_BYTES, random),
        1 => lent.tables = another_length(&lent.tables, 48, random),
        2 => lent.entries = another_length(&lent.entries, usize::MAX, random),
        _ => lent.tables = uncounted(region, random),
    }
    lent
}

/// Some bytes fewer or more, that do not make whole things of this size.
fn another_length(area: &Area, size: usize, random: &mut Random) -> Area {
    let length = area.contents().len();
    loop {
        let more = random.pick(&[1, 2, 4, 7, 8, 9, 16, 23, 24, 25, 31, 33, 40, 47, 49, 56]);
        let other = if random.chance(50) { length + more } else { length.saturating_sub(more) };
        if other != length && (size == usize::MAX || other % size != 0) {
            return area.resized(other);
        }
    }
}

/// Tables whose counts of entries add up to another number, in most cases to one that is the same in fewer bits.
fn uncounted(region: &Region, random: &mut Random) -> Area {
    let mut numbers = Numbers::of(region, || any_number(random));
    let tables = &mut numbers.tables;
    let (one, other) = (random.below(tables.len()), random.below(tables.len()));
    // Of the bytes, eight times as many, those of 2^61 entries already vanish.
    let power = 1u64 << random.pick(&[8, 16, 29, 32, 32, 56, 60, 61, 61, 62, 63, 63]);
    match random.below(6) {
        0 => tables[one][ENTRY_COUNT] += 1,
        1 => tables[one][ENTRY_COUNT] = tables[one][ENTRY_COUNT].wrapping_sub(1),
        2 => tables[one][ENTRY_COUNT] += power,
        3 if one != other => {
            // Together 2^64 more.
            tables[one][ENTRY_COUNT] += 1 << 63;
            tables[other][ENTRY_COUNT] += 1 << 63;
        }
        4 if one != other => {
            let shift = tables[one][ENTRY_COUNT] + random.between(1, 9);
            tables[one][ENTRY_COUNT] = tables[one][ENTRY_COUNT].wrapping_sub(shift);
            tables[other][ENTRY_COUNT] += shift;
        }
        _ => tables[one][ENTRY_COUNT] = NONE - random.between(0, 9),
    }
    numbers.lent().tables
}

/// Two tables of which one counts an entry of the other: whole, and question 8's "no".
pub fn shifted_count(random: &mut Random) -> Lent {
    loop {
        let mut numbers = Numbers::of(&sound_region(random), || any_number(random));
        let (one, other) = (random.below(numbers.tables.len()), random.below(numbers.tables.len()));
        if one != other {
            numbers.tables[one][ENTRY_COUNT] -= 1;
            numbers.tables[other][ENTRY_COUNT] += 1;
            return numbers.lent();
        }
    }
}

/// Patients of one bed and tables of one entry, so many of each.
pub fn of_counts(patients: usize, tables: usize, m: u64) -> Region {
    let table = Table { members: vec![0], entries: vec![Some(0)] };
    Region { patients: vec![Patient::of(0, 1, None); patients], tables: vec![table; tables], m }
}

/// Regions with their numbers: stores at the limit, and counts that are good ones in 8 or 16 bits.
pub fn of_sizes() -> Vec<(Region, u64)> {
    let table = |members: &[u64], entries| flat_table(members, HIGHEST_ENTRY, entries);
    let with = |more: Table| {
        let mut region = full_table();
        region.tables.push(more);
        region
    };
    let widest = Region { patients: chain(4, 16), tables: vec![table(&[0, 1, 2, 3], 65_536)], m: 1 };
    let mut sizes = vec![(full_table(), 0), (with(table(&[0], 16)), 8), (widest, 8), (full_size::longest_region(), 0)];
    for more in [256, 65_536] {
        let many_entries = Region { tables: vec![table(&[0], 1 + more)], ..of_counts(1, 0, 1) };
        sizes.extend([(of_counts(2 + more, 3, 1), 5), (of_counts(2, 3 + more, 1), 5), (many_entries, 8)]);
    }
    sizes
}

/// A sound region in which one field stands at a limit or beside it.
pub fn at_a_limit(random: &mut Random) -> Lent {
    let region = sound_region(random);
    let mut numbers = Numbers::of(&region, || any_number(random));
    let (patient, table) = (random.below(numbers.patients.len()), random.below(numbers.tables.len()));
    let entry = random.below(numbers.entries.len());
    let beds = region.patients[patient].beds;
    match random.below(8) {
        0 => numbers.m = random.pick(&[0, 1, 2, 63, 64, 65, 66]),
        1 => numbers.patients[patient][0] = random.pick(&[0, 1, 14, 15, 16, 17]),
        2 => numbers.patients[patient][1] = random.pick(&[0, 1, 2, 15, 16, 17]),
        3 => numbers.patients[patient][2] = random.between(0, region.patients.len() as u64 + 1),
        4 => numbers.patients[patient][3] = random.pick(&[0, beds - 1, beds, beds + 1, 15, 16, NONE]),
        5 => numbers.tables[table][0] = random.between(0, 6),
        6 => numbers.tables[table][1 + random.below(4)] = random.between(0, region.patients.len() as u64 + 1),
        _ => {
            numbers.entries[entry] =
                random.pick(&[0, HIGHEST_ENTRY - 1, HIGHEST_ENTRY, HIGHEST_ENTRY + 1, 9_999_999, 10_000_000])
        }
    }
    numbers.lent()
}

/// A good region with one patient's fixed bed at each number that may be mistaken, and the number of the call.
pub fn fixed_at_limits(random: &mut Random) -> Vec<(Lent, u64)> {
    let region = small::any_region(random);
    let place = random.below(region.patients.len());
    let beds = region.patients[place].beds;
    let (mark, power) = (u64::from(u32::MAX), 1 << 32);
    let refused = [beds, beds + 1, beds + 16, 256, mark - 1, mark, power, power + beds - 1, 1 << 63, NONE - 1];
    let taken = [0, beds - 1, NONE];
    let numbered = taken.map(|bed| (bed, 0)).into_iter().chain(refused.map(|bed| (bed, 6)));
    let mut lent_with = |bed: u64| {
        let mut numbers = Numbers::of(&region, || any_number(random));
        numbers.patients[place][3] = bed;
        numbers.lent()
    };
    numbered.map(|(bed, number)| (lent_with(bed), number)).collect()
}

/// Any small region, or one of one-bed patients in a chain with tables over one to four of them.
pub fn good_region(case: usize, random: &mut Random) -> Region {
    if case % 8 != 7 {
        return small::region(small::KINDS[case % small::KINDS.len()], random);
    }
    let (patients, tables) = (random.between(1, 32), random.between(0, 64));
    chain_of_counts(patients, tables as usize, random)
}

/// So many one-bed patients in a chain, and so many tables over one to four of them.
pub fn chain_of_counts(patients: u64, tables: usize, random: &mut Random) -> Region {
    let mut region = of_counts(patients as usize, tables, random.between(1, 64));
    for (number, patient) in region.patients.iter_mut().enumerate() {
        *patient = Patient::of(random.between(0, 15), 1, (number as u64).checked_sub(1));
        patient.fixed = random.chance(30).then_some(0);
    }
    for table in &mut region.tables {
        let most = random.between(1, 4) as usize;
        table.members = small::some_of((0..patients).collect(), most, random);
        let highest = random.pick(&[9, 99, 9_999, HIGHEST_ENTRY]);
        table.entries = vec![(!random.chance(20)).then(|| random.between(0, highest))];
    }
    region
}
