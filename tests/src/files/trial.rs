//! What `crates/trial_files` checks and prints: its files with check's number of each, its arguments and its output.

use crate::files::describe::{chain, child, flat_table, full_table, one_patient, paper, region, root, siblings, table};
use crate::files::Made;
use crate::generate::spelling::{
    body_of, end_line, file_of, in_old_form, lines_of, patient_line, sum_of, with_end, Draft,
};
use crate::limits::HIGHEST_NUMBER;
use crate::region::{Patient, Region};

const CRATE: &str = "crates/trial_files";
pub const DIRECTORY: &str = "crates/trial_files/data";

/// A file's name, check's number, and the file.
pub type Trial = (&'static str, u64, Vec<u8>);

/// The files, and what names them: the arguments, and the output that is due.
pub fn made() -> Vec<Made> {
    let trials = all();
    let lines = |line: fn(&Trial) -> String| trials.iter().map(line).collect::<String>().into_bytes();
    let args = lines(|(name, ..)| format!("{name}\n"));
    let stdout = lines(|(name, number, _)| format!("{name} {number}\n"));
    let mut made = vec![
        Made { path: format!("{CRATE}/args"), bytes: args },
        Made { path: format!("{CRATE}/stdout"), bytes: stdout },
    ];
    made.extend(trials.into_iter().map(|(name, _, bytes)| Made { path: format!("{DIRECTORY}/{name}"), bytes }));
    made
}

/// All of them, in the order in which they are checked.
pub fn all() -> Vec<Trial> {
    [ends(), spellings(), tables(), patients(), fixed_beds(), sizes()].into_iter().flatten().collect()
}

/// The paper's file, whole and with faults at its end.
fn ends() -> Vec<Trial> {
    let body = body_of(&paper());
    let file = with_end(&body);
    let sum = sum_of(&body);
    let after_the_end = patient_line(&paper().patients[1]);
    vec![
        ("paper", 0, file.clone()),
        ("empty", 2, Vec::new()),
        ("no_end_line", 2, body.clone()),
        ("two_end_lines", 2, [&file, end_line(sum).as_bytes()].concat()),
        ("line_after_the_end", 2, [&file, after_the_end.as_bytes()].concat()),
        ("last_line_end_missing", 2, file[..file.len() - 1].to_vec()),
        ("sum_one_higher", 4, [&body, end_line(sum + 1).as_bytes()].concat()),
        ("sum_of_the_first_line", 4, [&body, end_line(sum_of(lines_of(&body)[0])).as_bytes()].concat()),
    ]
}

/// Numbers, blanks and bytes.
fn spellings() -> Vec<Trial> {
    let entry = |number: u64| file_of(&one_patient([flat_table(&[0], number, 1)]));
    let with_beds = |text: &str| spelled(&one_patient([]), "(patient 0 1", text);
    vec![
        ("eight_digits", 2, entry(HIGHEST_NUMBER + 1)),
        ("seven_digits", 9, entry(HIGHEST_NUMBER)),
        ("leading_zero", 2, with_beds("(patient 00 1")),
        ("hyphen_for_beds", 2, with_beds("(patient 0 -")),
        ("double_space", 2, with_beds("(patient 0  1")),
        ("tab", 2, with_beds("(patient 0\t1")),
        ("carriage_returns", 2, each_replaced(&file_of(&paper()), b'\n', b"\r\n")),
        ("byte_200", 2, each_replaced(&file_of(&paper()), b'-', &[200])),
    ]
}

/// The members of a table, and how many entries it has.
fn tables() -> Vec<Trial> {
    let over = |count: u64, members: &[u64]| file_of(&region(1, chain(count, 1), [table(members, "0")]));
    vec![
        ("no_members", 2, over(1, &[])),
        ("no_entries", 2, file_of(&one_patient([table(&[0], "")]))),
        ("five_members", 7, over(5, &[0, 1, 2, 3, 4])),
        ("four_members", 0, over(5, &[0, 1, 2, 3])),
        ("members_out_of_order", 7, over(2, &[1, 0])),
        ("thousand_members", 7, over(1, &[0; 1_000])),
    ]
}

/// Counts of lines, and parents.
fn patients() -> Vec<Trial> {
    let roots = |count: usize| region(1, vec![root(0, 1); count], []);
    let with_parents = |patients: &[Patient]| file_of(&region(1, patients, []));
    vec![
        ("patients_33", 5, file_of(&roots(33))),
        ("patients_32_of_33", 3, Draft { v: 33, ..Draft::of(&roots(32)) }.file()),
        ("patients_32", 0, file_of(&roots(32))),
        ("tables_65", 5, file_of(&one_patient(vec![table(&[0], "0"); 65]))),
        ("parent_itself", 6, with_parents(&[child(0, 1, 0)])),
        ("parent_above", 6, with_parents(&[root(0, 1), child(0, 1, 2), root(0, 1)])),
        ("parent_far_above", 6, with_parents(&[child(0, 1, HIGHEST_NUMBER)])),
        ("siblings", 10, file_of(&siblings())),
    ]
}

/// The fourth field of a patient.
fn fixed_beds() -> Vec<Trial> {
    let staying = |bed: u64| file_of(&region(1, [root(0, 2).staying_in(bed)], []));
    let instead = |text: &str| spelled(&one_patient([]), "(patient 0 1 - -)", text);
    vec![
        ("fixed_bed", 0, staying(1)),
        ("fixed_bed_at_the_count", 6, staying(2)),
        ("fixed_bed_far_above", 6, staying(HIGHEST_NUMBER)),
        ("fixed_bed_missing", 2, in_old_form(&paper())),
        ("fixed_bed_twice", 2, instead("(patient 0 1 - - -)")),
        ("fixed_bed_leading_zero", 2, instead("(patient 0 1 - 00)")),
        ("fixed_bed_eight_digits", 2, staying(HIGHEST_NUMBER + 1)),
    ]
}

/// Entries in all, and bytes in all.
fn sizes() -> Vec<Trial> {
    let mut one_more = full_table();
    one_more.tables.push(flat_table(&[0], 0, 16));
    vec![
        ("entries_4096", 0, file_of(&full_table())),
        ("entries_4096_and_a_table", 8, file_of(&one_more)),
        ("entries_20000", 8, file_of(&one_patient([flat_table(&[0], 0, 20_000)]))),
        ("bytes_65535", 5, of_length(65_535)),
        ("bytes_65536", 1, of_length(65_536)),
    ]
}

/// A region's file with one place of it spelled otherwise, and its sum true.
fn spelled(region: &Region, place: &str, otherwise: &str) -> Vec<u8> {
    let body = String::from_utf8(body_of(region)).expect("a good body is text");
    assert_eq!(body.matches(place).count(), 1, "'{place}' must stand once in:\n{body}");
    with_end(body.replace(place, otherwise).as_bytes())
}

/// A file with a byte replaced wherever it stands, its sum left as it was.
fn each_replaced(file: &[u8], byte: u8, instead: &[u8]) -> Vec<u8> {
    file.split(|other| *other == byte).collect::<Vec<_>>().join(instead)
}

/// A laid-out file of so many bytes: patients with one bed, and a last one whose count of beds is as long as it must be.
fn of_length(length: usize) -> Vec<u8> {
    let shortest = patient_line(&root(0, 1)).len();
    let counts = (1..length / shortest).rev();
    let beds = [1, 11, 111, 1_111, 11_111, 111_111, 1_111_111];
    let all_of = |count: usize| beds.map(|beds| [vec![root(0, 1); count], vec![root(1, beds)]].concat());
    counts
        .flat_map(all_of)
        .map(|patients| file_of(&region(1, patients, [])))
        .take_while(|file| file.len() + 2 * shortest > length)
        .find(|file| file.len() == length)
        .expect("a file of this length")
}
