//! The version: the library's number is the one that the header states, and the header's text spells it.

use crate::compare::report::{Difference, Tally};
use crate::compare::{Tested, VersionCall};

/// The header that goes with the library.
pub const HEADER: &str = include_str!("../../../include/rigbasen.h");

pub fn run(tested: Tested<VersionCall>, header: &str) -> Result<Tally, Difference> {
    let mut tally = Tally::of(tested.name);
    let stated = defined(header, "RIGBASEN_VERSION_NUMBER").and_then(|number| number.parse().ok());
    let spelled = defined(header, "RIGBASEN_VERSION").and_then(|text| number_of(text.trim_matches('"')));
    // The same number however often it is asked for.
    for _ in 0..3 {
        let given = (tested.call)();
        if (stated, spelled) != (Some(given), Some(given)) {
            let told = |number: Option<u64>| number.map_or("none".to_string(), |number| number.to_string());
            let answers = vec![
                ("the header's number".to_string(), told(stated)),
                ("the header's text as a number".to_string(), told(spelled)),
                (tested.name.to_string(), given.to_string()),
            ];
            return Err(Difference { kind: tally.kind().to_string(), file: Vec::new(), answers });
        }
        tally.count(0);
    }
    tally.remark(format!("({})", told_version(header)));
    Ok(tally)
}

fn told_version(header: &str) -> &str {
    defined(header, "RIGBASEN_VERSION").unwrap_or("none")
}

/// What a macro of this name stands for, up to the first blank.
fn defined<'a>(header: &'a str, name: &str) -> Option<&'a str> {
    let mut values = header.lines().filter_map(|line| {
        let mut words = line.strip_prefix("#define ")?.split_whitespace();
        (words.next() == Some(name)).then(|| words.next())
    });
    values.next().flatten()
}

/// Three numbers with points between them, each below 1,000: major * 1,000,000 + minor * 1,000 + patch.
fn number_of(text: &str) -> Option<u64> {
    let parts: Vec<u64> = text.split('.').map(|part| part.parse().ok()).collect::<Option<_>>()?;
    match parts[..] {
        [major, minor, patch] if minor < 1_000 && patch < 1_000 => Some(major * 1_000_000 + minor * 1_000 + patch),
        _ => None,
    }
}
