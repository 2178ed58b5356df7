//! A region as it is lent to the call that writes its file: three areas of eight-byte numbers, and m.

use crate::areas::{Area, Arrays};
use crate::region::{Patient, Region, Table};

/// Stands for `-`.
pub const NONE: u64 = u64::MAX;

/// The numbers, of any size. A patient is its clinic, beds, parent and fixed bed; a table the count of its members, four of them,
/// and the count of its entries.
#[derive(Clone)]
pub struct Numbers {
    pub patients: Vec<[u64; 4]>,
    pub tables: Vec<[u64; 6]>,
    pub entries: Vec<u64>,
    pub m: u64,
}

/// How many bytes a patient has, and how many a table.
pub const PATIENT_BYTES: usize = 32;
pub const TABLE_BYTES: usize = 48;

/// Where the count of entries stands in a table.
pub const ENTRY_COUNT: usize = 5;

fn numbers_of(patient: &Patient) -> [u64; 4] {
    [patient.clinic, patient.beds, patient.parent.unwrap_or(NONE), patient.fixed.unwrap_or(NONE)]
}

impl Numbers {
    /// A region's numbers. A place of a member that is not there holds any number.
    pub fn of(region: &Region, mut unused: impl FnMut() -> u64) -> Numbers {
        let mut table_of = |table: &Table| {
            let mut numbers: [u64; 6] = std::array::from_fn(|_| unused());
            numbers[0] = table.members.len() as u64;
            numbers[1..ENTRY_COUNT].iter_mut().zip(&table.members).for_each(|(place, member)| *place = *member);
            numbers[ENTRY_COUNT] = table.entries.len() as u64;
            numbers
        };
        Numbers {
            patients: region.patients.iter().map(numbers_of).collect(),
            tables: region.tables.iter().map(&mut table_of).collect(),
            entries: region.tables.iter().flat_map(|table| &table.entries).map(|entry| entry.unwrap_or(NONE)).collect(),
            m: region.m,
        }
    }

    pub fn lent(&self) -> Lent {
        Lent {
            patients: Area::of_numbers(self.patients.iter().copied().flatten()),
            tables: Area::of_numbers(self.tables.iter().copied().flatten()),
            entries: Area::of_numbers(self.entries.iter().copied()),
            m: self.m,
        }
    }
}

/// The areas, which need not be whole.
#[derive(Clone, PartialEq)]
pub struct Lent {
    pub patients: Area,
    pub tables: Area,
    pub entries: Area,
    pub m: u64,
}

impl Lent {
    /// A region lent, with zeros where a table has no more members.
    pub fn of(region: &Region) -> Lent {
        Numbers::of(region, || 0).lent()
    }

    /// What read leaves, as it is lent to write: of each area the bytes that the result area counts, and m. Nothing where it counts
    /// more than there are.
    pub fn of_read(areas: &Arrays) -> Option<Lent> {
        let [patients, tables, m, entries] = *numbers_in(&areas.result).first_chunk()?;
        let counted = |area: &Area, count: u64, size: u64| {
            let length = count.checked_mul(size).filter(|length| *length <= area.contents().len() as u64)?;
            Some(area.resized(length as usize))
        };
        Some(Lent {
            patients: counted(&areas.patients, patients, PATIENT_BYTES as u64)?,
            tables: counted(&areas.tables, tables, TABLE_BYTES as u64)?,
            entries: counted(&areas.entries, entries, 8)?,
            m,
        })
    }

    /// The same contents in memory blocks of exactly their lengths.
    pub fn bare(&self) -> Lent {
        Lent { patients: self.patients.bare(), tables: self.tables.bare(), entries: self.entries.bare(), m: self.m }
    }

    /// The region, or 2 where the areas are not whole. The sum of all counts is taken without a limit.
    pub fn region(&self) -> Result<Region, u64> {
        let tables = numbers_in(&self.tables);
        let counted: u128 =
            tables.chunks(6).filter_map(|table| table.get(ENTRY_COUNT)).map(|count| u128::from(*count)).sum();
        let whole = self.patients.contents().len() % PATIENT_BYTES == 0
            && self.tables.contents().len() % TABLE_BYTES == 0
            && self.entries.contents().len() as u128 == counted * 8;
        if !whole {
            return Err(2);
        }
        let mut entries = numbers_in(&self.entries).into_iter().map(or_none);
        let patient = |numbers: &[u64]| Patient {
            clinic: numbers[0],
            beds: numbers[1],
            parent: or_none(numbers[2]),
            fixed: or_none(numbers[3]),
        };
        let mut table = |numbers: &[u64]| Table {
            members: members_of(numbers),
            entries: entries.by_ref().take(numbers[ENTRY_COUNT] as usize).collect(),
        };
        Ok(Region {
            patients: numbers_in(&self.patients).chunks(4).map(patient).collect(),
            tables: tables.chunks(6).map(&mut table).collect(),
            m: self.m,
        })
    }
}

/// As many as are counted. Past the fourth they have no place; question 7 refuses their count, which one of them shows.
fn members_of(table: &[u64]) -> Vec<u64> {
    let count = table[0].min(5) as usize;
    table[1..ENTRY_COUNT].iter().copied().chain([0]).take(count).collect()
}

fn or_none(number: u64) -> Option<u64> {
    (number != NONE).then_some(number)
}

/// The whole numbers of an area.
pub fn numbers_in(area: &Area) -> Vec<u64> {
    let (numbers, _) = area.contents().as_chunks();
    numbers.iter().map(|bytes| u64::from_le_bytes(*bytes)).collect()
}
