//! What a comparison prints: a line where all agrees, or the first difference.

use crate::areas::{Area, Areas, Arrays, Outputs};
use crate::numbers;
use std::collections::BTreeMap;

/// A run of so many cases must show every answer that its kind is there to try.
pub const MANY: u64 = 1_000;

/// The cases of one kind of test, and how often each number came up.
pub struct Tally {
    kind: String,
    cases: u64,
    numbers: BTreeMap<u64, u64>,
    remark: String,
}

impl Tally {
    pub fn of(kind: &str) -> Tally {
        Tally { kind: kind.to_string(), cases: 0, numbers: BTreeMap::new(), remark: String::new() }
    }

    /// All cases of some tallies: each number that there is must have come up, and no other.
    pub fn together(kind: &str, tallies: &[Tally]) -> Result<Tally, Difference> {
        let mut together = Tally::of(kind);
        for (number, times) in tallies.iter().flat_map(|tally| &tally.numbers) {
            together.add(*number, *times);
        }
        match together.numbers.keys().find(|number| !numbers::ALL.contains(number)) {
            Some(unknown) => Err(together.lack("no such number", *unknown)),
            None => together.with_all(numbers::ALL),
        }
    }

    /// Counts a case that agreed.
    pub fn count(&mut self, number: u64) {
        self.add(number, 1);
    }

    fn add(&mut self, number: u64, times: u64) {
        self.cases += times;
        *self.numbers.entry(number).or_default() += times;
    }

    /// Something to say at the end of the line.
    pub fn remark(&mut self, remark: String) {
        self.remark = remark;
    }

    /// The tally, if each of these numbers came up. A run of few cases need not have them.
    pub fn with_all(self, numbers: &[u64]) -> Result<Tally, Difference> {
        let missing = numbers.iter().find(|number| !self.numbers.contains_key(number));
        match missing {
            Some(number) if self.cases >= MANY => Err(self.lack("never came up", *number)),
            _ => Ok(self),
        }
    }

    /// The tally with a remark on how often some things were seen, if each of them was. In a run of few cases it need not be.
    pub fn with_seen(mut self, seen: &[(&str, u64)]) -> Result<Tally, Difference> {
        let texts: Vec<String> = seen.iter().map(|(what, times)| format!("{what}: {times}")).collect();
        self.remark(format!("({})", texts.join(", ")));
        match seen.iter().find(|(_, times)| *times == 0) {
            Some((what, _)) if self.cases >= MANY => Err(self.lack(what, 0)),
            _ => Ok(self),
        }
    }

    /// What is wrong with the numbers, though no two answers differ.
    fn lack(&self, what: &str, number: u64) -> Difference {
        let answers = vec![(what.to_string(), number.to_string())];
        Difference { kind: self.kind.clone(), file: Vec::new(), answers }
    }

    pub fn kind(&self) -> &str {
        &self.kind
    }

    pub fn cases(&self) -> u64 {
        self.cases
    }

    pub fn print(&self) {
        let numbers: Vec<String> = self.numbers.iter().map(|(number, times)| format!("{number}:{times}")).collect();
        println!("{:<34} {:>7} cases  {} {}", self.kind, self.cases, numbers.join(" "), self.remark);
    }
}

/// Two answers that differ, and the file that they were given for.
pub struct Difference {
    pub kind: String,
    pub file: Vec<u8>,
    pub answers: Vec<(String, String)>,
}

impl Difference {
    pub fn print(&self) {
        println!("DIFFERENCE in: {}", self.kind);
        println!("the file, {} bytes, line ends and other bytes escaped:", self.file.len());
        println!("{}", readable(&self.file));
        for (who, answer) in &self.answers {
            println!("{who}: {answer}");
        }
    }
}

/// A file or a printed text, one line to a line, line ends and other bytes escaped.
pub fn readable(file: &[u8]) -> String {
    file.escape_ascii().to_string().replace("\\n", "\\n\n")
}

pub fn hexadecimal(bytes: &[u8]) -> String {
    bytes.iter().map(|byte| format!("{byte:02x}")).collect()
}

/// An area's bytes and, where a guard byte was written, a word on that.
pub fn area_text(area: &Area) -> String {
    let guards = if area.guards_whole() { "" } else { " (bytes beside the area written)" };
    format!("{}{guards}", hexadecimal(area.contents()))
}

/// The areas of a list or sheet call, one to a line.
pub fn areas_text(areas: &Areas) -> String {
    let Areas { beds, costs, result } = areas;
    format!("\n  beds   {}\n  costs  {}\n  result {}", area_text(beds), area_text(costs), area_text(result))
}

/// The areas of a call that writes a file, one to a line.
pub fn outputs_text(areas: &Outputs) -> String {
    format!("\n  output {}\n  result {}", area_text(&areas.output), area_text(&areas.result))
}

/// The areas of a read call, one to a line.
pub fn arrays_text(areas: &Arrays) -> String {
    let [patients, tables, entries, result] = areas.all().map(area_text);
    format!("\n  patients {patients}\n  tables   {tables}\n  entries  {entries}\n  result   {result}")
}
