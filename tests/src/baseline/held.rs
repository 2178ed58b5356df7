//! The region in fixed arrays.

use std::ops::Range;

pub const MOST_PATIENTS: usize = 32;
pub const MOST_TABLES: usize = 64;
pub const MOST_ENTRIES: usize = 4_096;
pub const MOST_MEMBERS: usize = 4;

/// A parent, a fixed bed or an entry that is `-`. No number of a file is as large.
pub const HYPHEN: u32 = u32::MAX;

#[derive(Clone, Copy)]
pub struct Patient {
    pub clinic: u32,
    pub beds: u32,
    pub parent: u32,
    pub fixed: u32,
}

impl Patient {
    /// The beds to try.
    #[inline]
    pub fn permitted(&self) -> Range<usize> {
        match self.fixed {
            HYPHEN => 0..self.beds as usize,
            bed => bed as usize..bed as usize + 1,
        }
    }
}

/// The first members as they stand, how many there are in the file, and where the entries lie in
/// the store.
#[derive(Clone, Copy)]
pub struct Table {
    pub members: [u32; MOST_MEMBERS],
    pub member_count: usize,
    pub start: usize,
    pub entry_count: usize,
}

pub struct Held {
    pub patient_count: usize,
    pub table_count: usize,
    pub entry_count: usize,
    pub m: usize,
    pub patients: [Patient; MOST_PATIENTS],
    pub tables: [Table; MOST_TABLES],
    pub store: [u32; MOST_ENTRIES],
}

impl Held {
    pub fn blank() -> Held {
        Held {
            patient_count: 0,
            table_count: 0,
            entry_count: 0,
            m: 0,
            patients: [Patient { clinic: 0, beds: 0, parent: HYPHEN, fixed: HYPHEN }; MOST_PATIENTS],
            tables: [Table { members: [0; MOST_MEMBERS], member_count: 0, start: 0, entry_count: 0 }; MOST_TABLES],
            store: [HYPHEN; MOST_ENTRIES],
        }
    }

    pub fn patients(&self) -> &[Patient] {
        &self.patients[..self.patient_count]
    }

    pub fn tables(&self) -> &[Table] {
        &self.tables[..self.table_count]
    }
}

impl Table {
    pub fn members(&self) -> &[u32] {
        &self.members[..self.member_count]
    }
}
