//! A sorted list of at most m rows.

use crate::baseline::held::MOST_PATIENTS;

/// A row of some patients: the cost, and beds that are 0 for all others. The derived order is the list's.
#[derive(Clone, Copy, PartialEq, Eq, PartialOrd, Ord)]
pub struct Row {
    pub cost: u64,
    pub beds: [u8; MOST_PATIENTS],
}

pub struct Rows {
    most: usize,
    rows: Vec<Row>,
}

impl Rows {
    pub fn none(most: usize) -> Rows {
        Rows { most, rows: Vec::with_capacity(most + 1) }
    }

    /// The list of no patients: one row without cost.
    pub fn empty_row(most: usize) -> Rows {
        Rows { most, rows: vec![Row { cost: 0, beds: [0; MOST_PATIENTS] }] }
    }

    pub fn rows(&self) -> &[Row] {
        &self.rows
    }

    /// Is the list full, and nothing at or after this row can come into it?
    #[inline]
    pub fn cuts(&self, cost: u64, beds: &[u8; MOST_PATIENTS]) -> bool {
        if self.rows.len() < self.most {
            return false;
        }
        let last = &self.rows[self.most - 1];
        cost > last.cost || cost == last.cost && *beds >= last.beds
    }

    /// Puts a row, which differs from all here, into its place; the last falls out of a full list.
    pub fn insert(&mut self, row: Row) {
        let place = self.rows.partition_point(|earlier| *earlier < row);
        self.rows.insert(place, row);
        self.rows.truncate(self.most);
    }

    /// The first rows of two sets of patients together. Row i of one and row j of the other come
    /// after (i + 1)(j + 1) - 1 combinations, so only those below `most` are looked at.
    pub fn combined(&self, other: &Rows) -> Rows {
        let mut both = Rows::none(self.most);
        for (i, one) in self.rows.iter().enumerate() {
            for two in other.rows.iter().take(self.most / (i + 1)) {
                let beds = std::array::from_fn(|patient| one.beds[patient] + two.beds[patient]);
                let row = Row { cost: one.cost + two.cost, beds };
                if !both.cuts(row.cost, &row.beds) {
                    both.insert(row);
                }
            }
        }
        both
    }
}
