//! Files whose first "no" is a known one of the questions 3 to 10, and files longer than question 1 allows.

use crate::generate::full_size;
use crate::generate::parents;
use crate::generate::small;
use crate::generate::spelling::{lines_of, sum_of, with_stated_end, Draft};
use crate::limits::{HIGHEST_ENTRY, HIGHEST_NUMBER};
use crate::random::Random;
use crate::region::{Patient, Region, Table};

const LARGE: [u64; 6] = [65, 255, 256, 65_536, HIGHEST_ENTRY + 1, HIGHEST_NUMBER];

/// A small region that faults can be put into: at least two patients and one table.
pub fn sound_region(random: &mut Random) -> Region {
    loop {
        let region = small::any_region(random);
        if region.patients.len() >= 2 && !region.tables.is_empty() {
            return region;
        }
    }
}

/// A file of which the question, 3 to 10, is answered "no" and every earlier one "yes".
pub fn file_with_fault(question: u64, random: &mut Random) -> Vec<u8> {
    file_with_all(&[question], random)
}

/// A file with faults of two questions; the smaller number is its answer.
pub fn file_with_faults(one: u64, other: u64, random: &mut Random) -> Vec<u8> {
    file_with_all(&[one, other], random)
}

/// A file with faults of all these questions, 3 to 10; the smallest is its answer. Without any it is a good one.
pub fn file_with_all(questions: &[u64], random: &mut Random) -> Vec<u8> {
    let draft = with_faults(questions, random);
    written(questions.contains(&4), &draft, random)
}

/// A file with faults of these questions, 3 to 9, and any parents: the smallest is its answer whether or not parents are asked for.
/// A fault of question 6 is in another field.
pub fn file_with_any_parents(questions: &[u64], random: &mut Random) -> Vec<u8> {
    let others: Vec<u64> = questions.iter().copied().filter(|question| *question != 6).collect();
    let mut draft = with_faults(&others, random);
    let region = &mut draft.region;
    if questions.contains(&6) && !region.patients.is_empty() {
        let place = random.below(region.patients.len());
        let kind = random.below(6);
        out_of_limits(&mut region.patients[place], kind, random);
    }
    for (number, patient) in (0..).zip(&mut region.patients) {
        patient.parent = parents::any_parent(number, random);
    }
    written(questions.contains(&4), &draft, random)
}

/// A region with faults of these questions, as far as they are 5 to 10; the smallest is its answer.
pub fn region_with_faults(questions: &[u64], random: &mut Random) -> Region {
    with_faults(questions, random).region
}

fn with_faults(questions: &[u64], random: &mut Random) -> Draft {
    let mut draft = Draft::of(&sound_region(random));
    let mut falling = questions.to_vec();
    // Counts are stated last, of what the file then holds.
    falling.sort_by(|one, other| other.cmp(one));
    for question in falling {
        put_fault(question, &mut draft, random);
    }
    draft
}

fn written(wrong_sum: bool, draft: &Draft, random: &mut Random) -> Vec<u8> {
    if wrong_sum {
        return with_wrong_sum(draft, random);
    }
    draft.file()
}

fn put_fault(question: u64, draft: &mut Draft, random: &mut Random) {
    match question {
        3 => wrong_count(draft, random),
        5 => out_of_bounds(draft, random),
        6 => wrong_patient(&mut draft.region, random),
        7 => wrong_members(&mut draft.region, random),
        8 => wrong_entries(draft, random),
        9 => high_entry(&mut draft.region, random),
        10 => joined_trees(draft, random),
        _ => {}
    }
}

/// Question 1: longer than 65,535 bytes.
pub fn too_long(random: &mut Random) -> Vec<u8> {
    let length = random.pick(&[65_536, 65_537, 65_600, 70_000, 131_072]);
    match random.below(3) {
        0 => full_size::laid_out_file(length, random),
        1 => vec![b'0'; length],
        _ => {
            let mut file = full_size::good_file(random);
            file.resize(length, b'\n');
            file
        }
    }
}

/// Question 3.
fn wrong_count(draft: &mut Draft, random: &mut Random) {
    let before = (draft.v, draft.t);
    while before == (draft.v, draft.t) {
        match random.below(7) {
            0 => draft.v += 1,
            1 => draft.v = draft.v.saturating_sub(1),
            2 => draft.t += 1,
            3 => draft.t = draft.t.saturating_sub(1),
            4 => draft.v = random.pick(&LARGE),
            5 => draft.t = random.pick(&LARGE),
            _ => (draft.v, draft.t) = (draft.t, draft.v),
        }
    }
}

/// Question 4: another sum than the true one, among them sums over the wrong bytes.
fn with_wrong_sum(draft: &Draft, random: &mut Random) -> Vec<u8> {
    let body = draft.body();
    let right = sum_of(&body);
    let first_line = lines_of(&body)[0];
    loop {
        let stated = match random.below(8) {
            0 => right + 1,
            1 => right.saturating_sub(1),
            2 => right + 65_521,
            3 => sum_of(first_line),
            4 => sum_of(&body[first_line.len()..]),
            5 => sum_of(&with_stated_end(&body, right)),
            6 => body.iter().map(|byte| u64::from(*byte)).sum(),
            _ => random.between(0, HIGHEST_NUMBER),
        };
        if stated != right && stated <= HIGHEST_NUMBER {
            return with_stated_end(&body, stated);
        }
    }
}

/// Question 5: V, T or m outside its limits, with the lines that are stated.
fn out_of_bounds(draft: &mut Draft, random: &mut Random) {
    let region = &mut draft.region;
    match random.below(5) {
        0 => region.m = 0,
        1 => region.m = random.pick(&LARGE),
        2 => {
            let some = region.patients[0].clone();
            region.patients.resize(random.between(33, 70) as usize, some);
        }
        3 => {
            let beds = region.patients[0].beds.clamp(1, 16) as usize;
            let some = Table { members: vec![0], entries: vec![Some(0); beds] };
            region.tables.resize(random.between(65, 90) as usize, some);
        }
        _ => region.patients.clear(),
    }
    draft.v = region.patients.len() as u64;
    draft.t = region.tables.len() as u64;
}

/// Question 6.
fn wrong_patient(region: &mut Region, random: &mut Random) {
    let number = random.below(region.patients.len());
    let patient = &mut region.patients[number];
    match random.below(8) {
        6 => patient.parent = Some(number as u64),
        7 => patient.parent = Some(number as u64 + random.pick(&[1, 2, 32, 256, HIGHEST_NUMBER - 999])),
        kind => out_of_limits(patient, kind, random),
    }
}

/// Question 6, by a field other than the parent, in one of six ways.
fn out_of_limits(patient: &mut Patient, kind: usize, random: &mut Random) {
    match kind {
        0 => patient.clinic = random.pick(&[16, 17, 32, 256, HIGHEST_NUMBER]),
        1 => patient.beds = 0,
        2 => patient.beds = random.pick(&[17, 18, 256, HIGHEST_NUMBER]),
        3 => patient.fixed = Some(patient.beds),
        4 => patient.fixed = Some(patient.beds + random.pick(&[1, 2, 16, 32, 256, HIGHEST_NUMBER - 999])),
        _ => *patient = Patient { beds: 1, fixed: Some(1), ..patient.clone() },
    }
}

/// Question 7. The entries stay as they are: question 8 comes later.
fn wrong_members(region: &mut Region, random: &mut Random) {
    let v = region.patients.len() as u64;
    let place = random.below(region.tables.len());
    let members = &mut region.tables[place].members;
    match random.below(6) {
        0 => members.push(v),
        1 => *members.last_mut().expect("a member") = v + random.pick(&[0, 1, 32, 256, HIGHEST_NUMBER - 999]),
        2 => members.push(members[members.len() - 1]),
        3 => members.insert(0, members[0] + 1),
        4 => *members = (0..random.between(5, 40)).collect(),
        _ => *members = vec![0, 1, 0],
    }
}

/// Question 8: an entry too many or too few, or too many together.
fn wrong_entries(draft: &mut Draft, random: &mut Random) {
    let place = random.below(draft.region.tables.len());
    let entries = &mut draft.region.tables[place].entries;
    match random.below(5) {
        0 => entries.push(None),
        1 => entries.push(Some(random.between(0, HIGHEST_ENTRY))),
        2 if entries.len() > 1 => drop(entries.pop()),
        3 => entries.extend(vec![Some(0); 4_096]),
        _ => fill_store(draft, random),
    }
}

/// Tables of the right size, together more than 4,096 entries.
fn fill_store(draft: &mut Draft, random: &mut Random) {
    let first = draft.region.patients.len() as u64;
    if first > 28 || draft.region.tables.len() > 48 {
        draft.region.tables[0].entries.push(None);
        return;
    }
    for number in first..first + 3 {
        let parent = (number > first).then(|| number - 1);
        draft.region.patients.push(Patient::of(3, 16, parent));
    }
    let large = Table { members: vec![first, first + 1, first + 2], entries: vec![Some(1); 4_096] };
    let place = random.below(draft.region.tables.len() + 1);
    draft.region.tables.insert(place, large);
    draft.v = draft.region.patients.len() as u64;
    draft.t = draft.region.tables.len() as u64;
}

/// Question 9.
fn high_entry(region: &mut Region, random: &mut Random) {
    let table = random.below(region.tables.len());
    let entries = &mut region.tables[table].entries;
    let any = random.below(entries.len());
    let place = random.pick(&[0, entries.len() - 1, any]);
    let low = HIGHEST_ENTRY + 1;
    entries[place] = Some(random.pick(&[low, low + 1, low.next_power_of_two(), HIGHEST_ENTRY * 2, HIGHEST_NUMBER]));
}

/// Question 10: a table over two to four patients, of two of which neither is the other's ancestor.
fn joined_trees(draft: &mut Draft, random: &mut Random) {
    let region = &mut draft.region;
    if region.tables.len() == 64 {
        region.tables.pop();
    }
    let second = random.between(1, region.patients.len() as u64 - 1);
    let first = random.between(0, second - 1);
    // The second patient and those below it become a tree of their own.
    region.patients[second as usize].parent = None;
    let others = random.below(3);
    let mut members = small::some_of((0..region.patients.len() as u64).collect(), others, random);
    members.extend([first, second]);
    members.sort();
    members.dedup();
    let entries = vec![Some(7); region.entries_over(&members) as usize];
    let place = random.below(region.tables.len() + 1);
    region.tables.insert(place, Table { members, entries });
    draft.t = draft.region.tables.len() as u64;
}
