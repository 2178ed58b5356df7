//! The region as the independent program holds it: plain vectors, numbers of one width, no limits.

/// A patient (a variable): its clinic, how many beds it may have, its parent in the tree, and the bed that it keeps, if it does.
#[derive(Clone, Debug, PartialEq)]
pub struct Patient {
    pub clinic: u64,
    pub beds: u64,
    pub parent: Option<u64>,
    pub fixed: Option<u64>,
}

impl Patient {
    /// A patient with these fields. A field that few files use has its usual value here, and nowhere else.
    pub fn of(clinic: u64, beds: u64, parent: Option<u64>) -> Patient {
        Patient { clinic, beds, parent, fixed: None }
    }

    /// The same patient, who keeps this bed.
    pub fn staying_in(self, bed: u64) -> Patient {
        Patient { fixed: Some(bed), ..self }
    }
}

/// A table (a cost function): its members, and its entries with the last member's bed moving fastest.
/// An entry that is `None` is forbidden.
#[derive(Clone, Debug, PartialEq)]
pub struct Table {
    pub members: Vec<u64>,
    pub entries: Vec<Option<u64>>,
}

/// A region: its patients, its tables, and how many plans are wanted.
#[derive(Clone, Debug, PartialEq)]
pub struct Region {
    pub patients: Vec<Patient>,
    pub tables: Vec<Table>,
    pub m: u64,
}

impl Region {
    /// How many entries a table over these members has: the product of their bed counts.
    pub fn entries_over(&self, members: &[u64]) -> u64 {
        members.iter().map(|member| self.patients[*member as usize].beds).product()
    }

    /// Is `upper` met on the way from `lower` to its root?
    pub fn is_ancestor(&self, upper: u64, lower: u64) -> bool {
        let mut at = self.patients[lower as usize].parent;
        while let Some(patient) = at {
            if patient == upper {
                return true;
            }
            at = self.patients[patient as usize].parent;
        }
        false
    }

    /// How many plans there are, allowed or not.
    pub fn plan_count(&self) -> u64 {
        self.patients.iter().fold(1, |count: u64, patient| count.saturating_mul(patient.beds))
    }

    /// The patients of a clinic, by rising number.
    pub fn patients_of(&self, clinic: u64) -> Vec<usize> {
        (0..self.patients.len()).filter(|patient| self.patients[*patient].clinic == clinic).collect()
    }

    /// The clinics that have patients, rising.
    pub fn clinics(&self) -> Vec<u64> {
        let mut clinics: Vec<u64> = self.patients.iter().map(|patient| patient.clinic).collect();
        clinics.sort();
        clinics.dedup();
        clinics
    }
}
