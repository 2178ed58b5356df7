//! A file read whatever its parents are, its parents made from the tables, and the file written.

use crate::areas::Outputs;
use crate::baseline::held::{Held, HYPHEN, MOST_PATIENTS};
use crate::baseline::reader::read_whatever_parents;
use crate::baseline::writer::{answered, written};

/// Parents: one result number, the byte count.
pub fn parents(file: &[u8], areas: &mut Outputs) -> u64 {
    let mut held = Held::blank();
    let read = read_whatever_parents(file, &mut held);
    let answer = read.and_then(|()| {
        make_parents(&mut held);
        written(&held, areas)
    });
    answered(answer, areas)
}

/// From the last patient to the first, neighbours as bits. The earlier neighbours of a patient are handed to the highest of them, who
/// hands them on: the others need not be joined at once.
fn make_parents(held: &mut Held) {
    let mut near = neighbours(held);
    for patient in (0..held.patient_count).rev() {
        let earlier = near[patient] & ((1 << patient) - 1);
        held.patients[patient].parent = match earlier.checked_ilog2() {
            Some(parent) => {
                near[parent as usize] |= earlier;
                parent
            }
            None => HYPHEN,
        };
    }
}

/// A bit for each patient who shares a table with this one.
fn neighbours(held: &Held) -> [u32; MOST_PATIENTS] {
    let mut near = [0; MOST_PATIENTS];
    for table in held.tables() {
        let together = table.members().iter().fold(0, |members, member| members | 1 << member);
        table.members().iter().for_each(|member| near[*member as usize] |= together);
    }
    near
}
