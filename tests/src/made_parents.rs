//! The file that parents must write, by the independent program: the file's own lines with other parents in them. What is only to be
//! copied is not read as anything. A parent is found by paths, so that no neighbours are joined on the way.

use crate::generate::spelling::{lines_of, with_right_sum};
use crate::reader;
use crate::region::Region;

/// The file with its parents made; or the first "no" of questions 1 to 9, of which 6 asks nothing of parents.
pub fn file(file: &[u8]) -> Result<Vec<u8>, u64> {
    let region = reader::read_whatever_parents(file)?;
    Ok(with_parents(file, &by_paths(&region)))
}

/// The parent of each patient.
pub fn by_paths(region: &Region) -> Vec<Option<u64>> {
    (0..region.patients.len() as u64).map(|patient| parent_of(region, patient)).collect()
}

/// Of the earlier patients to whom a path of shared tables leads, all others on it behind this patient, the highest-numbered.
fn parent_of(region: &Region, patient: u64) -> Option<u64> {
    let mut reached = vec![patient];
    let mut earlier = Vec::new();
    let mut looked_at = 0;
    while let Some(at) = reached.get(looked_at).copied() {
        looked_at += 1;
        for table in region.tables.iter().filter(|table| table.members.contains(&at)) {
            for member in &table.members {
                let kind = if *member < patient { &mut earlier } else { &mut reached };
                if !kind.contains(member) {
                    kind.push(*member);
                }
            }
        }
    }
    earlier.into_iter().max()
}

/// The file with these words in the places of its parents, and its sum made right again.
fn with_parents(file: &[u8], parents: &[Option<u64>]) -> Vec<u8> {
    let mut parents = parents.iter();
    let mut lines = Vec::new();
    for line in lines_of(file) {
        if !line.starts_with(b"(patient ") {
            lines.extend(line);
            continue;
        }
        let mut words: Vec<&[u8]> = line.split(|byte| *byte == b' ').collect();
        let parent = parents.next().expect("a parent for each patient").map_or("-".to_string(), |p| p.to_string());
        words[3] = parent.as_bytes();
        lines.extend(words.join(&b' '));
    }
    with_right_sum(&lines)
}
