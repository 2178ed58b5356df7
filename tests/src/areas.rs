//! Lent areas, each between guard bytes that no call may touch.

use crate::plans::Row;
use crate::random::Random;

const GUARD: usize = 16;
const GUARD_BYTE: u8 = 0xa7;
/// Before an area of numbers, so that they stand at no multiple of eight.
const ODD_GUARD: usize = 13;

/// A lent area of some length. Equality looks at the guard bytes too.
#[derive(Clone, PartialEq)]
pub struct Area {
    bytes: Vec<u8>,
    guard: usize,
}

impl Area {
    /// An area filled with a pattern of bytes of at least 128, which differ from every bed and from 0.
    pub fn patterned(length: usize, salt: u64) -> Area {
        let pattern = |place: usize| 128 | ((place as u64).wrapping_mul(37).wrapping_add(salt) as u8 & 127);
        Area::guarded((0..length).map(pattern), GUARD)
    }

    /// The same, where numbers of eight bytes are to be written: they stand at no multiple of eight.
    pub fn patterned_for_numbers(length: usize, salt: u64) -> Area {
        Area::guarded(Area::patterned(length, salt).contents().iter().copied(), ODD_GUARD)
    }

    /// An area of numbers that are there to be read, eight bytes each, lowest byte first.
    pub fn of_numbers(numbers: impl IntoIterator<Item = u64>) -> Area {
        Area::guarded(numbers.into_iter().flat_map(u64::to_le_bytes), ODD_GUARD)
    }

    fn guarded(contents: impl Iterator<Item = u8>, guard: usize) -> Area {
        let mut bytes = vec![GUARD_BYTE; guard];
        bytes.extend(contents);
        bytes.resize(bytes.len() + guard, GUARD_BYTE);
        Area { bytes, guard }
    }

    /// The same area with another length: cut at its end, or with some bytes more.
    pub fn resized(&self, length: usize) -> Area {
        let more = std::iter::repeat(0xff);
        Area::guarded(self.contents().iter().copied().chain(more).take(length), self.guard)
    }

    /// The same contents in a memory block of exactly their length.
    pub fn bare(&self) -> Area {
        Area { bytes: self.contents().to_vec(), guard: 0 }
    }

    /// The part that is lent.
    pub fn lent(&mut self) -> &mut [u8] {
        let end = self.bytes.len() - self.guard;
        &mut self.bytes[self.guard..end]
    }

    /// The lent part, to read.
    pub fn contents(&self) -> &[u8] {
        &self.bytes[self.guard..self.bytes.len() - self.guard]
    }

    /// Writes the byte after the area, as a wrong call might.
    pub fn spill(&mut self) {
        let end = self.bytes.len() - self.guard;
        self.bytes[end] = 0;
    }

    /// Are the bytes beside the area as they were?
    pub fn guards_whole(&self) -> bool {
        let (before, others) = self.bytes.split_at(self.guard);
        let after = &others[others.len() - self.guard..];
        before.iter().chain(after).all(|byte| *byte == GUARD_BYTE)
    }
}

/// The areas that list and sheet write.
#[derive(Clone, PartialEq)]
pub struct Areas {
    pub beds: Area,
    pub costs: Area,
    pub result: Area,
}

/// A length at or beside the one that is needed, or any shorter or somewhat longer one.
pub fn length_near(needed: usize, random: &mut Random) -> usize {
    match random.below(8) {
        0 => needed - 1,
        1 => random.below(needed),
        2 => needed + 1,
        3 => needed + random.below(40),
        _ => needed,
    }
}

/// The areas that write, join and parents write.
#[derive(Clone, PartialEq)]
pub struct Outputs {
    pub output: Area,
    pub result: Area,
}

impl Outputs {
    pub fn patterned(output: usize, result: usize, salt: u64) -> Outputs {
        Outputs { output: Area::patterned(output, salt), result: Area::patterned(result, salt ^ 42) }
    }

    /// The same contents in memory blocks of exactly their lengths.
    pub fn bare(&self) -> Outputs {
        Outputs { output: self.output.bare(), result: self.result.bare() }
    }

    /// Takes over the contents of areas of the same lengths.
    pub fn take(&mut self, other: &Outputs) {
        self.output.lent().copy_from_slice(other.output.contents());
        self.result.lent().copy_from_slice(other.result.contents());
    }

    /// The bytes that the result area counts; none where it is too short to count.
    pub fn counted(&self) -> &[u8] {
        let count = self.result.contents().first_chunk().map_or(0, |bytes| u64::from_le_bytes(*bytes));
        self.output.contents().get(..count as usize).unwrap_or_default()
    }
}

/// How many bytes each area of a read call has: patients, tables, entries and result.
pub type ArrayLengths = [usize; 4];

/// The areas that read writes.
#[derive(Clone, PartialEq)]
pub struct Arrays {
    pub patients: Area,
    pub tables: Area,
    pub entries: Area,
    pub result: Area,
}

impl Arrays {
    pub fn patterned(lengths: ArrayLengths, salt: u64) -> Arrays {
        let [patients, tables, entries, result] = lengths;
        Arrays {
            patients: Area::patterned_for_numbers(patients, salt),
            tables: Area::patterned_for_numbers(tables, salt ^ 21),
            entries: Area::patterned_for_numbers(entries, salt ^ 42),
            result: Area::patterned_for_numbers(result, salt ^ 63),
        }
    }

    /// The four areas in their order.
    pub fn all(&self) -> [&Area; 4] {
        [&self.patients, &self.tables, &self.entries, &self.result]
    }

    /// The four areas in their order, to write.
    pub fn each(&mut self) -> [&mut Area; 4] {
        [&mut self.patients, &mut self.tables, &mut self.entries, &mut self.result]
    }

    pub fn lengths(&self) -> ArrayLengths {
        self.all().map(|area| area.contents().len())
    }

    /// The same contents in memory blocks of exactly their lengths.
    pub fn bare(&self) -> Arrays {
        let [patients, tables, entries, result] = self.all().map(Area::bare);
        Arrays { patients, tables, entries, result }
    }

    /// Takes over the contents of areas of the same lengths.
    pub fn take(&mut self, other: &Arrays) {
        for (area, other) in self.each().into_iter().zip(other.all()) {
            area.lent().copy_from_slice(other.contents());
        }
    }
}

/// How many bytes each area of a list or sheet call has.
#[derive(Clone, Copy, Debug)]
pub struct Lengths {
    pub beds: usize,
    pub costs: usize,
    pub result: usize,
}

impl Lengths {
    /// What question 12 asks for.
    pub fn asked(m: u64, patients: usize) -> Lengths {
        Lengths { beds: m as usize * patients, costs: m as usize * 8, result: 8 }
    }
}

impl Areas {
    pub fn patterned(lengths: Lengths, salt: u64) -> Areas {
        Areas {
            beds: Area::patterned(lengths.beds, salt),
            costs: Area::patterned(lengths.costs, salt ^ 21),
            result: Area::patterned(lengths.result, salt ^ 42),
        }
    }

    /// The same contents in memory blocks of exactly their lengths.
    pub fn bare(&self) -> Areas {
        Areas { beds: self.beds.bare(), costs: self.costs.bare(), result: self.result.bare() }
    }

    /// The rows that the result area counts, each of so many beds.
    pub fn rows(&self, width: usize) -> Vec<Row> {
        let count = self.result.contents().first_chunk().map_or(0, |bytes| u64::from_le_bytes(*bytes));
        let (costs, _) = self.costs.contents().as_chunks();
        let rows = self.beds.contents().chunks(width).zip(costs);
        rows.take(count as usize)
            .map(|(beds, cost)| Row { cost: u64::from_le_bytes(*cost), beds: beds.to_vec() })
            .collect()
    }

    /// Takes over the contents of areas of the same lengths.
    pub fn take(&mut self, other: &Areas) {
        self.beds.lent().copy_from_slice(other.beds.contents());
        self.costs.lent().copy_from_slice(other.costs.contents());
        self.result.lent().copy_from_slice(other.result.contents());
    }
}
