//! Wrong parts handed back by line's entry, made from the proved one, each beside the comparison that must find it.

use crate::boundary::{self, Part};
use crate::compare::wrong::Comparison;
use crate::compare::{part, PartCall};

/// Parts that are not those of the file.
pub fn all() -> Vec<(&'static str, Comparison<PartCall>, PartCall)> {
    vec![
        ("a copy is handed back", part::regions, copied),
        ("a copy is handed back", part::faulty_files, copied),
        ("a part of the typed text is handed back", part::regions, of_the_typed_text),
        ("an empty part elsewhere", part::regions, empty_elsewhere),
        ("an empty part elsewhere", part::faulty_files, empty_elsewhere),
        ("nothing is handed back", part::faulty_files, nothing),
    ]
}

/// The same bytes, in other memory.
fn copied(file: &[u8], typed: &[u8]) -> (u64, Option<Part>) {
    let copy: Box<[u8]> = file.into();
    boundary::line_part(&copy, typed)
}

/// What is not empty lies in the typed text.
fn of_the_typed_text(file: &[u8], typed: &[u8]) -> (u64, Option<Part>) {
    let (number, part) = boundary::line_part(file, typed);
    let other = |part: Part| Part { address: typed.as_ptr() as usize, length: part.length };
    (number, part.map(|part| if part.length == 0 { part } else { other(part) }))
}

/// An empty part lies where the file begins.
fn empty_elsewhere(file: &[u8], typed: &[u8]) -> (u64, Option<Part>) {
    let (number, part) = boundary::line_part(file, typed);
    let at_start = Part { address: file.as_ptr() as usize, length: 0 };
    (number, part.map(|part| if part.length == 0 { at_start } else { part }))
}

fn nothing(file: &[u8], typed: &[u8]) -> (u64, Option<Part>) {
    (boundary::line_part(file, typed).0, None)
}
