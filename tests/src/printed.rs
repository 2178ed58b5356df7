//! What the printing program must print for a file, by the independent program.

use crate::outcomes::Outcomes;
use crate::plans::{self, Row};

/// The list, then a sheet for each clinic that has patients, clinics rising; or only the refusal.
pub fn text(outcomes: &Outcomes) -> String {
    let (region, list) = match outcomes.listed() {
        Ok(listed) => listed,
        Err(number) => return refusal_text(number),
    };
    let mut text = list_text(list);
    for clinic in region.clinics() {
        text += &sheet_text(clinic, &plans::sheet(region, list, clinic));
    }
    text
}

pub fn refusal_text(number: u64) -> String {
    format!("(refused {number})\n")
}

pub fn list_text(rows: &[Row]) -> String {
    format!("(list {})\n{}", rows.len(), rows_text(rows))
}

pub fn sheet_text(clinic: u64, rows: &[Row]) -> String {
    format!("(sheet {clinic} {})\n{}", rows.len(), rows_text(rows))
}

/// A line for each row: the cost, then the beds.
fn rows_text(rows: &[Row]) -> String {
    let beds = |row: &Row| row.beds.iter().map(u8::to_string).collect::<Vec<_>>().join(" ");
    rows.iter().map(|row| format!("(row {} ({}))\n", row.cost, beds(row))).collect()
}
