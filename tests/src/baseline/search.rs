//! Depth-first branch and bound, tree by tree of the forest that the parents make.

use crate::baseline::held::{Held, HYPHEN, MOST_PATIENTS};
use crate::baseline::rows::{Row, Rows};
use std::ops::Range;
use std::time::Instant;

/// A sum of entries is forbidden from here on: numbers add up to at most 64,000,000.
const FORBIDDEN: u64 = HYPHEN as u64;
const MOST_BEDS: usize = 16;

/// The list, and how many beds were tried on the way.
pub struct Found {
    pub list: Rows,
    pub beds_tried: u64,
}

/// The list of an accepted region, or `None` where the deadline came first.
pub fn list(held: &Held, deadline: Option<Instant>) -> Option<Found> {
    let mut list = Rows::empty_row(held.m);
    let mut beds_tried = 0;
    for root in 0..held.patient_count {
        if held.patients[root].parent != HYPHEN {
            continue;
        }
        let mut walk = Walk::of_tree(held, root, deadline);
        walk.place(0, 0);
        if walk.stopped {
            return None;
        }
        beds_tried += walk.beds_tried;
        list = list.combined(&walk.list);
    }
    Some(Found { list, beds_tried })
}

/// The walk over the patients of one tree.
struct Walk<'a> {
    held: &'a Held,
    /// The tree's patients, lowest number first.
    patients: Vec<usize>,
    /// The tables whose highest member is the patient at a depth.
    tables: Vec<Vec<usize>>,
    /// What the patients from a depth on cost at least.
    bound: Vec<u64>,
    beds: [u8; MOST_PATIENTS],
    list: Rows,
    beds_tried: u64,
    deadline: Option<Instant>,
    stopped: bool,
}

impl Walk<'_> {
    fn of_tree(held: &Held, root: usize, deadline: Option<Instant>) -> Walk<'_> {
        let mut of_tree = [false; MOST_PATIENTS];
        of_tree[root] = true;
        for number in root + 1..held.patient_count {
            let parent = held.patients[number].parent;
            of_tree[number] = parent != HYPHEN && of_tree[parent as usize];
        }
        let patients: Vec<usize> = (root..held.patient_count).filter(|number| of_tree[*number]).collect();
        let highest = |table: usize| *held.tables[table].members().last().expect("a member") as usize;
        let tables_of = |patient: &usize| (0..held.table_count).filter(|table| highest(*table) == *patient).collect();
        let tables: Vec<Vec<usize>> = patients.iter().map(tables_of).collect();
        let bound = bounds(held, &tables);
        Walk {
            held,
            patients,
            tables,
            bound,
            beds: [0; MOST_PATIENTS],
            list: Rows::none(held.m),
            beds_tried: 0,
            deadline,
            stopped: false,
        }
    }

    /// Tries every bed of the patient at a depth, rising; of one who stays, the fixed bed alone.
    fn place(&mut self, depth: usize, cost: u64) {
        if depth == self.patients.len() {
            self.list.insert(Row { cost, beds: self.beds });
            return;
        }
        let patient = self.patients[depth];
        let permitted = self.held.patients[patient].permitted();
        let costs = self.bed_costs(depth, &permitted);
        for (bed, bed_cost) in permitted.zip(&costs) {
            self.beds_tried += 1;
            if self.out_of_time() {
                return;
            }
            if *bed_cost >= FORBIDDEN {
                continue;
            }
            self.beds[patient] = bed as u8;
            let so_far = cost + bed_cost;
            if !self.list.cuts(so_far + self.bound[depth + 1], &self.beds) {
                self.place(depth + 1, so_far);
            }
        }
        self.beds[patient] = 0;
    }

    /// What each of these beds of the patient at a depth adds. The patient is its tables' last member, so
    /// its beds lie side by side in the store.
    #[inline]
    fn bed_costs(&self, depth: usize, beds: &Range<usize>) -> [u64; MOST_BEDS] {
        let bed_count = self.held.patients[self.patients[depth]].beds as usize;
        let mut costs = [0; MOST_BEDS];
        for table in &self.tables[depth] {
            let table = &self.held.tables[*table];
            let (_, earlier) = table.members().split_last().expect("a member");
            let block = earlier.iter().fold(0, |place, member| {
                place * self.held.patients[*member as usize].beds as usize + self.beds[*member as usize] as usize
            });
            let start = table.start + block * bed_count;
            for (cost, entry) in costs.iter_mut().zip(&self.held.store[start + beds.start..start + beds.end]) {
                *cost += u64::from(*entry);
            }
        }
        costs
    }

    /// Looks at the clock once in 65,536 beds.
    #[inline]
    fn out_of_time(&mut self) -> bool {
        if self.beds_tried & 0xffff == 0 {
            self.stopped = self.deadline.is_some_and(|deadline| Instant::now() > deadline);
        }
        self.stopped
    }
}

/// At each depth, the sum of the least numbers of the tables from there on.
fn bounds(held: &Held, tables: &[Vec<usize>]) -> Vec<u64> {
    let least = |table: &usize| {
        let table = &held.tables[*table];
        let entries = &held.store[table.start..table.start + table.entry_count];
        let least = entries.iter().min().copied().unwrap_or(HYPHEN);
        if least == HYPHEN {
            0
        } else {
            u64::from(least)
        }
    };
    let mut bound = vec![0; tables.len() + 1];
    for depth in (0..tables.len()).rev() {
        bound[depth] = bound[depth + 1] + tables[depth].iter().map(least).sum::<u64>();
    }
    bound
}
