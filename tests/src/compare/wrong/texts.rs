//! Wrong printed texts, made from the independent program's, and programs that print something else.

use crate::compare::printing::{output_of, Text};
use crate::compare::wrong::fixed_beds::{self, changed_file};
use crate::outcomes::Outcomes;
use crate::plans::{self, Row};
use crate::printed::{self, list_text, refusal_text, sheet_text};
use crate::region::Region;
use std::env;
use std::path::Path;

/// The right text.
fn right(file: &[u8]) -> String {
    printed::text(&Outcomes::of(file))
}

/// The text of other refusals, or of another list and other sheets.
fn other(file: &[u8], refusal: fn(u64) -> String, listed: impl Fn(&Region, &[Row]) -> String) -> Text {
    let outcomes = Outcomes::of(file);
    let text = match outcomes.listed() {
        Ok((region, list)) => listed(region, list),
        Err(number) => refusal(number),
    };
    Ok(text.into_bytes())
}

fn other_refusals(file: &[u8], refusal: fn(u64) -> String) -> Text {
    other(file, refusal, |_, _| right(file))
}

/// A text for each clinic that has patients.
fn other_sheets(file: &[u8], sheet: impl Fn(&Region, &[Row], u64) -> String) -> Text {
    let sheets = |region: &Region, list: &[Row]| -> String {
        region.clinics().into_iter().map(|clinic| sheet(region, list, clinic)).collect()
    };
    other(file, refusal_text, |region, list| list_text(list) + &sheets(region, list))
}

/// The right text with something behind it.
fn with_behind(file: &[u8], behind: &str) -> Text {
    Ok((right(file) + behind).into_bytes())
}

pub fn refusal_one_higher(file: &[u8]) -> Text {
    other_refusals(file, |number| refusal_text(number + 1))
}

pub fn empty_list_for_13(file: &[u8]) -> Text {
    other_refusals(file, |number| if number == 13 { list_text(&[]) } else { refusal_text(number) })
}

pub fn list_after_refusal(file: &[u8]) -> Text {
    other_refusals(file, |number| refusal_text(number) + &list_text(&[]))
}

/// The list's last row is missing, though it is counted.
pub fn list_row_missing(file: &[u8]) -> Text {
    let text = right(file);
    let row = text.find("(sheet ").and_then(|sheet| text[..sheet].rfind("(row ").map(|row| row..sheet));
    Ok(row.map_or(text.clone(), |row| text.replacen(&text[row], "", 1)).into_bytes())
}

pub fn sheet_row_missing(file: &[u8]) -> Text {
    other_sheets(file, |region, list, clinic| {
        let rows = plans::sheet(region, list, clinic);
        sheet_text(clinic, &rows[..rows.len() - 1])
    })
}

/// The rows of the first clinic, whatever clinic stands above them.
pub fn sheet_of_the_first_clinic(file: &[u8]) -> Text {
    other_sheets(file, |region, list, clinic| sheet_text(clinic, &plans::sheet(region, list, region.clinics()[0])))
}

pub fn clinic_one_higher(file: &[u8]) -> Text {
    other_sheets(file, |region, list, clinic| sheet_text(clinic + 1, &plans::sheet(region, list, clinic)))
}

pub fn sheets_of_all_clinics(file: &[u8]) -> Text {
    other(file, refusal_text, |region, list| {
        let sheets = (0..=15).map(|clinic| sheet_text(clinic, &plans::sheet(region, list, clinic)));
        list_text(list) + &sheets.collect::<String>()
    })
}

/// The text of the same region with no fixed bed.
pub fn fixed_beds_ignored(file: &[u8]) -> Text {
    Ok(right(&changed_file(file, fixed_beds::all_free)).into_bytes())
}

pub fn line_end_missing(file: &[u8]) -> Text {
    let mut text = right(file);
    text.pop();
    Ok(text.into_bytes())
}

pub fn line_end_added(file: &[u8]) -> Text {
    with_behind(file, "\n")
}

pub fn zero_byte_added(file: &[u8]) -> Text {
    with_behind(file, "\0")
}

/// What an installed program prints. One that is missing would be found wrong for that alone.
fn printed_by(program: &str, file: &[u8]) -> Text {
    let path = env::var_os("PATH").unwrap_or_default();
    if !env::split_paths(&path).any(|directory| directory.join(program).is_file()) {
        panic!("{program} is not installed, and it is tried as a wrong printing program");
    }
    output_of(Path::new(program), file)
}

/// A program that prints the file itself.
pub fn file_itself(file: &[u8]) -> Text {
    printed_by("cat", file)
}

/// A program that prints nothing.
pub fn nothing(file: &[u8]) -> Text {
    printed_by("true", file)
}

/// A program that ends in a failure, whatever text stands before.
pub fn right_with_failure(file: &[u8]) -> Text {
    printed_by("false", file).map(|_| right(file).into_bytes())
}
