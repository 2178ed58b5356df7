//! Wrong calls of read that judge rightly and leave other numbers, made from the proved one.

use crate::areas::Arrays;
use crate::boundary;
use crate::generate::parents::parents_of;
use crate::lent::{numbers_in, Lent, Numbers, ENTRY_COUNT, NONE};
use crate::limits::HIGHEST_ENTRY;
use crate::region::Region;

/// Places of the result area.
pub const V: usize = 0;
pub const T: usize = 1;
pub const M: usize = 2;
pub const N: usize = 3;

/// Places of a patient.
pub const CLINIC: usize = 0;
pub const BEDS: usize = 1;
pub const PARENT: usize = 2;
pub const FIXED: usize = 3;

/// What stands for none in 32 bits.
pub const MARK: u64 = u32::MAX as u64;

/// Numbers into the beginning of an area, as many as it has room for.
fn put(area: &mut [u8], numbers: &[u64]) {
    let (places, _) = area.as_chunks_mut();
    places.iter_mut().zip(numbers).for_each(|(place, number)| *place = number.to_le_bytes());
}

/// The numbers that were read, and what stands in the result area.
fn read_numbers(areas: &Arrays) -> (Numbers, [u64; 4]) {
    let lent = Lent::of_read(areas).expect("a result area of four numbers");
    let (patients, tables) = (numbers_in(&lent.patients), numbers_in(&lent.tables));
    let numbers = Numbers {
        patients: patients.as_chunks().0.to_vec(),
        tables: tables.as_chunks().0.to_vec(),
        entries: numbers_in(&lent.entries),
        m: lent.m,
    };
    let counts = [V, T, M, N].map(|place| numbers_in(&areas.result)[place]);
    (numbers, counts)
}

/// Leaves other numbers than were read, in areas that are as they were before.
fn changed(file: &[u8], areas: &mut Arrays, change: impl Fn(&mut Numbers, &mut [u64; 4])) -> u64 {
    let before = areas.clone();
    let number = boundary::read(file, areas);
    if number == 0 {
        let (mut numbers, mut counts) = read_numbers(areas);
        change(&mut numbers, &mut counts);
        areas.take(&before);
        put(areas.patients.lent(), numbers.patients.as_flattened());
        put(areas.tables.lent(), numbers.tables.as_flattened());
        put(areas.entries.lent(), &numbers.entries);
        put(areas.result.lent(), &counts);
    }
    number
}

fn each_patient(file: &[u8], areas: &mut Arrays, change: impl Fn(u64, &mut [u64; 4])) -> u64 {
    changed(file, areas, |numbers, _| (0..).zip(&mut numbers.patients).for_each(|(number, one)| change(number, one)))
}

fn each_table(file: &[u8], areas: &mut Arrays, change: impl Fn(&mut [u64; 6])) -> u64 {
    changed(file, areas, |numbers, _| numbers.tables.iter_mut().for_each(&change))
}

fn each_entry(file: &[u8], areas: &mut Arrays, change: impl Fn(u64) -> u64) -> u64 {
    changed(file, areas, |numbers, _| numbers.entries.iter_mut().for_each(|entry| *entry = change(*entry)))
}

/// The entries of each table, in the order of the tables, changed.
fn entries_by_table(file: &[u8], areas: &mut Arrays, change: impl Fn(&Numbers, &mut Vec<Vec<u64>>)) -> u64 {
    changed(file, areas, |numbers, _| {
        let mut rest = numbers.entries.iter().copied();
        let of_table = |table: &[u64; 6]| rest.by_ref().take(table[ENTRY_COUNT] as usize).collect();
        let mut by_table: Vec<Vec<u64>> = numbers.tables.iter().map(of_table).collect();
        change(numbers, &mut by_table);
        numbers.entries = by_table.concat();
    })
}

/// A number that is not none, changed.
fn if_any(number: u64, change: impl Fn(u64) -> u64) -> u64 {
    if number == NONE {
        return NONE;
    }
    change(number)
}

pub fn field_one_higher<const FIELD: usize>(file: &[u8], areas: &mut Arrays) -> u64 {
    each_patient(file, areas, |_, patient| patient[FIELD] = if_any(patient[FIELD], |number| number + 1))
}

pub fn field_one_lower<const FIELD: usize>(file: &[u8], areas: &mut Arrays) -> u64 {
    each_patient(file, areas, |_, patient| patient[FIELD] = if_any(patient[FIELD], |number| number.saturating_sub(1)))
}

pub fn fields_exchanged<const ONE: usize, const OTHER: usize>(file: &[u8], areas: &mut Arrays) -> u64 {
    each_patient(file, areas, |_, patient| patient.swap(ONE, OTHER))
}

pub fn field_cut<const FIELD: usize, const BITS: u64>(file: &[u8], areas: &mut Arrays) -> u64 {
    each_patient(file, areas, |_, patient| patient[FIELD] = if_any(patient[FIELD], |number| number % (1 << BITS)))
}

/// A parent or a fixed bed that is none gets this number.
pub fn field_none_as<const FIELD: usize, const INSTEAD: u64>(file: &[u8], areas: &mut Arrays) -> u64 {
    each_patient(file, areas, |_, patient| {
        if patient[FIELD] == NONE {
            patient[FIELD] = INSTEAD;
        }
    })
}

pub fn field_zero_as_none<const FIELD: usize>(file: &[u8], areas: &mut Arrays) -> u64 {
    each_patient(file, areas, |_, patient| {
        if patient[FIELD] == 0 {
            patient[FIELD] = NONE;
        }
    })
}

/// A patient without a parent is its own.
pub fn own_parent_for_none(file: &[u8], areas: &mut Arrays) -> u64 {
    each_patient(file, areas, |number, patient| {
        if patient[PARENT] == NONE {
            patient[PARENT] = number;
        }
    })
}

/// A free patient's fixed bed is the bed count, which no bed is.
pub fn count_for_no_fixed_bed(file: &[u8], areas: &mut Arrays) -> u64 {
    each_patient(file, areas, |_, patient| {
        if patient[FIXED] == NONE {
            patient[FIXED] = patient[BEDS];
        }
    })
}

pub fn field_always<const FIELD: usize, const NUMBER: u64>(file: &[u8], areas: &mut Arrays) -> u64 {
    each_patient(file, areas, |_, patient| patient[FIELD] = NUMBER)
}

/// Each patient has this field of the one before.
pub fn field_shifted<const FIELD: usize>(file: &[u8], areas: &mut Arrays) -> u64 {
    changed(file, areas, |numbers, _| {
        for place in (1..numbers.patients.len()).rev() {
            numbers.patients[place][FIELD] = numbers.patients[place - 1][FIELD];
        }
    })
}

pub fn last_fixed_bed_lost(file: &[u8], areas: &mut Arrays) -> u64 {
    changed(file, areas, |numbers, _| {
        if let Some(patient) = numbers.patients.last_mut() {
            patient[FIXED] = NONE;
        }
    })
}

/// The parents are those that the call parents would make.
pub fn parents_made(file: &[u8], areas: &mut Arrays) -> u64 {
    changed(file, areas, |numbers, _| {
        let region: Region = numbers.lent().region().expect("whole areas");
        let made = parents_of(region.patients.len(), &region.tables);
        numbers.patients.iter_mut().zip(made).for_each(|(patient, parent)| patient[PARENT] = parent.unwrap_or(NONE));
    })
}

pub fn patients_turned(file: &[u8], areas: &mut Arrays) -> u64 {
    changed(file, areas, |numbers, _| numbers.patients.reverse())
}

pub fn last_patient_left_out(file: &[u8], areas: &mut Arrays) -> u64 {
    changed(file, areas, |numbers, _| numbers.patients.truncate(numbers.patients.len() - 1))
}

pub fn first_patient_twice(file: &[u8], areas: &mut Arrays) -> u64 {
    changed(file, areas, |numbers, _| {
        if numbers.patients.len() > 1 {
            numbers.patients[1] = numbers.patients[0];
        }
    })
}

/// As the form of a patient was before the fixed bed: 24 bytes each.
pub fn patients_of_24_bytes(file: &[u8], areas: &mut Arrays) -> u64 {
    let before = areas.clone();
    let number = boundary::read(file, areas);
    if number == 0 {
        let (numbers, _) = read_numbers(areas);
        areas.patients = before.patients;
        let three: Vec<u64> = numbers.patients.iter().flat_map(|patient| patient[..FIXED].to_vec()).collect();
        put(areas.patients.lent(), &three);
    }
    number
}

/// All clinics, then all bed counts, and so on.
pub fn field_by_field(file: &[u8], areas: &mut Arrays) -> u64 {
    changed(file, areas, |numbers, _| {
        let fields = (0..4).flat_map(|field| numbers.patients.iter().map(move |patient| patient[field]));
        numbers.patients = fields.collect::<Vec<u64>>().as_chunks().0.to_vec();
    })
}

/// Places past the member count, and how many members there are.
fn past_the_count(table: &mut [u64; 6]) -> (&mut [u64], usize) {
    let count = table[0] as usize;
    (&mut table[1 + count..ENTRY_COUNT], count)
}

/// Places past the member count have this number.
pub fn unused_members<const NUMBER: u64>(file: &[u8], areas: &mut Arrays) -> u64 {
    each_table(file, areas, |table| past_the_count(table).0.fill(NUMBER))
}

/// Places past the member count repeat the last member.
pub fn last_member_repeated(file: &[u8], areas: &mut Arrays) -> u64 {
    each_table(file, areas, |table| {
        let last = table[table[0] as usize];
        past_the_count(table).0.fill(last);
    })
}

/// Places past the member count stay as they were before the call.
pub fn unused_members_left(file: &[u8], areas: &mut Arrays) -> u64 {
    let before = areas.tables.contents().to_vec();
    let number = boundary::read(file, areas);
    if number == 0 {
        let (numbers, _) = read_numbers(areas);
        for (place, table) in numbers.tables.iter().enumerate() {
            let unused = place * 48 + 8 + table[0] as usize * 8..place * 48 + 40;
            areas.tables.lent()[unused.clone()].copy_from_slice(&before[unused]);
        }
    }
    number
}

/// The members stand in the last of the four places.
pub fn members_at_the_end(file: &[u8], areas: &mut Arrays) -> u64 {
    each_table(file, areas, |table| {
        let unused = past_the_count(table).0.len();
        table[1..ENTRY_COUNT].rotate_right(unused);
    })
}

pub fn members_turned(file: &[u8], areas: &mut Arrays) -> u64 {
    each_table(file, areas, |table| {
        let count = table[0] as usize;
        table[1..1 + count].reverse();
    })
}

pub fn members_counted_from_1(file: &[u8], areas: &mut Arrays) -> u64 {
    each_table(file, areas, |table| {
        let count = table[0] as usize;
        table[1..1 + count].iter_mut().for_each(|member| *member += 1);
    })
}

pub fn fourth_member_lost(file: &[u8], areas: &mut Arrays) -> u64 {
    each_table(file, areas, |table| table[4] = 0)
}

pub fn members_cut<const BITS: u64>(file: &[u8], areas: &mut Arrays) -> u64 {
    each_table(file, areas, |table| table[1..ENTRY_COUNT].iter_mut().for_each(|member| *member %= 1 << BITS))
}

pub fn table_field_one_higher<const FIELD: usize>(file: &[u8], areas: &mut Arrays) -> u64 {
    each_table(file, areas, |table| table[FIELD] += 1)
}

pub fn table_field_one_lower<const FIELD: usize>(file: &[u8], areas: &mut Arrays) -> u64 {
    each_table(file, areas, |table| table[FIELD] -= 1)
}

pub fn member_count_always_4(file: &[u8], areas: &mut Arrays) -> u64 {
    each_table(file, areas, |table| table[0] = 4)
}

pub fn table_counts_exchanged(file: &[u8], areas: &mut Arrays) -> u64 {
    each_table(file, areas, |table| table.swap(0, ENTRY_COUNT))
}

/// The entry count stands behind the member count.
pub fn entry_count_second(file: &[u8], areas: &mut Arrays) -> u64 {
    each_table(file, areas, |table| table[1..].rotate_right(1))
}

pub fn entry_count_in_bytes(file: &[u8], areas: &mut Arrays) -> u64 {
    each_table(file, areas, |table| table[ENTRY_COUNT] *= 8)
}

pub fn entry_count_cut<const BITS: u64>(file: &[u8], areas: &mut Arrays) -> u64 {
    each_table(file, areas, |table| table[ENTRY_COUNT] %= 1 << BITS)
}

/// In the place of the entry count stands where a table's entries begin, or where they end.
fn entry_places(file: &[u8], areas: &mut Arrays, ends: bool) -> u64 {
    changed(file, areas, |numbers, _| {
        let mut start = 0;
        for table in &mut numbers.tables {
            let end = start + table[ENTRY_COUNT];
            table[ENTRY_COUNT] = if ends { end } else { start };
            start = end;
        }
    })
}

pub fn entries_begin(file: &[u8], areas: &mut Arrays) -> u64 {
    entry_places(file, areas, false)
}

pub fn entries_end(file: &[u8], areas: &mut Arrays) -> u64 {
    entry_places(file, areas, true)
}

pub fn tables_turned(file: &[u8], areas: &mut Arrays) -> u64 {
    changed(file, areas, |numbers, _| numbers.tables.reverse())
}

pub fn last_table_left_out(file: &[u8], areas: &mut Arrays) -> u64 {
    changed(file, areas, |numbers, _| numbers.tables.truncate(numbers.tables.len().saturating_sub(1)))
}

/// The entries of the last table come first.
pub fn table_entries_turned(file: &[u8], areas: &mut Arrays) -> u64 {
    entries_by_table(file, areas, |_, by_table| by_table.reverse())
}

pub fn entries_turned(file: &[u8], areas: &mut Arrays) -> u64 {
    entries_by_table(file, areas, |_, by_table| by_table.iter_mut().for_each(|entries| entries.reverse()))
}

/// The first member's bed moves fastest, in tables of two members.
pub fn first_member_fastest(file: &[u8], areas: &mut Arrays) -> u64 {
    entries_by_table(file, areas, |numbers, by_table| {
        for (table, entries) in numbers.tables.iter().zip(by_table).filter(|(table, _)| table[0] == 2) {
            let beds = [1, 2].map(|place| numbers.patients[table[place] as usize][BEDS] as usize);
            let at = |place: usize| entries[place % beds[0] * beds[1] + place / beds[0]];
            *entries = (0..entries.len()).map(at).collect();
        }
    })
}

pub fn entries_rising(file: &[u8], areas: &mut Arrays) -> u64 {
    entries_by_table(file, areas, |_, by_table| by_table.iter_mut().for_each(|entries| entries.sort()))
}

/// A table that repeats an earlier one has no entries of its own.
pub fn repeated_entries_left_out(file: &[u8], areas: &mut Arrays) -> u64 {
    entries_by_table(file, areas, |_, by_table| by_table.dedup())
}

pub fn last_entry_left_out(file: &[u8], areas: &mut Arrays) -> u64 {
    changed(file, areas, |numbers, _| numbers.entries.truncate(numbers.entries.len().saturating_sub(1)))
}

/// A forbidden entry gets this number.
pub fn forbidden_as<const NUMBER: u64>(file: &[u8], areas: &mut Arrays) -> u64 {
    each_entry(file, areas, |entry| if entry == NONE { NUMBER } else { entry })
}

/// An entry of this price is taken as forbidden.
pub fn as_forbidden<const PRICE: u64>(file: &[u8], areas: &mut Arrays) -> u64 {
    each_entry(file, areas, |entry| if entry == PRICE { NONE } else { entry })
}

pub fn entries_one_higher(file: &[u8], areas: &mut Arrays) -> u64 {
    each_entry(file, areas, |entry| if_any(entry, |price| price + 1))
}

pub fn entries_cut<const BITS: u64>(file: &[u8], areas: &mut Arrays) -> u64 {
    each_entry(file, areas, |entry| if_any(entry, |price| price % (1 << BITS)))
}

/// The highest price is one less.
pub fn below_the_highest(file: &[u8], areas: &mut Arrays) -> u64 {
    each_entry(file, areas, |entry| if_any(entry, |price| price.min(HIGHEST_ENTRY - 1)))
}

pub fn count_one_higher<const PLACE: usize>(file: &[u8], areas: &mut Arrays) -> u64 {
    changed(file, areas, |_, counts| counts[PLACE] += 1)
}

pub fn count_one_lower<const PLACE: usize>(file: &[u8], areas: &mut Arrays) -> u64 {
    changed(file, areas, |_, counts| counts[PLACE] = counts[PLACE].saturating_sub(1))
}

pub fn counts_exchanged<const ONE: usize, const OTHER: usize>(file: &[u8], areas: &mut Arrays) -> u64 {
    changed(file, areas, |_, counts| counts.swap(ONE, OTHER))
}

pub fn count_cut<const PLACE: usize, const BITS: u64>(file: &[u8], areas: &mut Arrays) -> u64 {
    changed(file, areas, |_, counts| counts[PLACE] %= 1 << BITS)
}

pub fn m_always_64(file: &[u8], areas: &mut Arrays) -> u64 {
    changed(file, areas, |_, counts| counts[M] = 64)
}

/// Forbidden entries are not counted.
pub fn allowed_entries_counted(file: &[u8], areas: &mut Arrays) -> u64 {
    changed(file, areas, |numbers, counts| {
        counts[N] = numbers.entries.iter().filter(|entry| **entry != NONE).count() as u64;
    })
}

/// The entries of the last table alone are counted.
pub fn last_entries_counted(file: &[u8], areas: &mut Arrays) -> u64 {
    changed(file, areas, |numbers, counts| counts[N] = numbers.tables.last().map_or(0, |table| table[ENTRY_COUNT]))
}

/// Bytes are counted, not entries.
pub fn entry_bytes_counted(file: &[u8], areas: &mut Arrays) -> u64 {
    changed(file, areas, |_, counts| counts[N] *= 8)
}

/// How many entries the area has room for.
pub fn room_counted(file: &[u8], areas: &mut Arrays) -> u64 {
    let room = areas.entries.contents().len() as u64 / 8;
    changed(file, areas, |_, counts| counts[N] = room)
}
