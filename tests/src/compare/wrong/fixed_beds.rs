//! What the wrong calls make of fixed beds.

use crate::generate::spelling::{file_of, lines_of, with_right_sum};
use crate::reader;
use crate::region::{Patient, Region};

/// A good file after a change of its region; any other file as it is.
pub fn changed_file(file: &[u8], change: impl Fn(&mut Region)) -> Vec<u8> {
    match reader::read(file) {
        Err(_) => file.to_vec(),
        Ok(mut region) => {
            change(&mut region);
            file_of(&region)
        }
    }
}

fn free_where(region: &mut Region, free: impl Fn(usize, &Patient) -> bool) {
    for (number, patient) in region.patients.iter_mut().enumerate() {
        patient.fixed = patient.fixed.filter(|_| !free(number, patient));
    }
}

pub fn all_free(region: &mut Region) {
    free_where(region, |_, _| true);
}

pub fn all_but_the_first_free(region: &mut Region) {
    free_where(region, |number, _| number > 0);
}

pub fn last_free(region: &mut Region) {
    let last = region.patients.len().saturating_sub(1);
    free_where(region, |number, _| number == last);
}

/// The patients outside a clinic are free.
pub fn free_elsewhere(region: &mut Region, clinic: u64) {
    free_where(region, |_, patient| patient.clinic != clinic);
}

/// Those whose fixed bed is their bed count are free.
pub fn free_at_the_count(region: &mut Region) {
    free_where(region, |_, patient| patient.fixed == Some(patient.beds));
}

/// Those whose fixed bed is below 16, whatever their bed count, are free.
pub fn free_below_16(region: &mut Region) {
    free_where(region, |_, patient| patient.fixed.is_some_and(|bed| bed < 16));
}

/// How many patients have a fixed bed.
pub fn count(patients: &[Patient]) -> u64 {
    patients.iter().filter(|patient| patient.fixed.is_some()).count() as u64
}

/// The file with the fields of its patients changed, and its sum made right again if any was.
pub fn respelled(file: &[u8], change: impl Fn(&mut Vec<String>)) -> Vec<u8> {
    let line = |line: &[u8]| {
        let fields = line.strip_prefix(b"(patient ").and_then(|rest| rest.strip_suffix(b")\n"));
        let Some(Ok(fields)) = fields.map(std::str::from_utf8) else { return line.to_vec() };
        let mut fields: Vec<String> = fields.split(' ').map(str::to_string).collect();
        change(&mut fields);
        format!("(patient {})\n", fields.join(" ")).into_bytes()
    };
    let changed = lines_of(file).into_iter().map(line).collect::<Vec<_>>().concat();
    if changed == file {
        return changed;
    }
    with_right_sum(&changed)
}

/// A file of the old form as one of the new form, all patients free.
pub fn in_new_form(file: &[u8]) -> Vec<u8> {
    respelled(file, |fields| {
        if fields.len() == 3 {
            fields.push("-".to_string());
        }
    })
}
