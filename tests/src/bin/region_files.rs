//! Writes the region files that the repository holds from their descriptions (`files`), or with `--check` writes nothing and
//! ends with status 1 where a file differs from its description, is missing, or has none. It is run in `tests/`.

use rigbasen_tests::files::{self, Made};
use rigbasen_tests::generate::spelling::lines_of;
use std::fs;
use std::io::ErrorKind;
use std::path::Path;
use std::process::ExitCode;

const USAGE: &str = "region_files [--check]";

/// The repository's root, seen from `tests/`.
const ROOT: &str = "..";

fn main() -> ExitCode {
    let arguments: Vec<String> = std::env::args().skip(1).collect();
    let check = match &arguments[..] {
        [] => false,
        [only] if only == "--check" => true,
        _ => {
            eprintln!("{USAGE}");
            return ExitCode::from(2);
        }
    };
    match run(check) {
        Ok(true) => ExitCode::SUCCESS,
        Ok(false) => ExitCode::FAILURE,
        Err(fault) => {
            eprintln!("{USAGE}: {fault}");
            ExitCode::from(2)
        }
    }
}

/// Says which files are not as described, and writes them unless it only checks; is all in order then?
fn run(check: bool) -> Result<bool, String> {
    let made = files::all();
    let mut changed = 0;
    for file in &made {
        let Some(difference) = difference(file)? else { continue };
        changed += 1;
        println!("{}: {difference}", file.path);
        if !check {
            let place = Path::new(ROOT).join(&file.path);
            fs::write(&place, &file.bytes).map_err(|fault| format!("{}: {fault}", file.path))?;
        }
    }
    let strays = strays(&made)?;
    for stray in &strays {
        println!("{stray}: no description makes this file; describe it or remove it");
    }
    let what = if check { "not as described" } else { "written" };
    println!("{} files described, {changed} {what}, {} not described", made.len(), strays.len());
    Ok(strays.is_empty() && !(check && changed > 0))
}

/// What is different from the description, if anything.
fn difference(file: &Made) -> Result<Option<String>, String> {
    match fs::read(Path::new(ROOT).join(&file.path)) {
        Ok(bytes) if bytes == file.bytes => Ok(None),
        Ok(bytes) => Ok(Some(first_difference(&bytes, &file.bytes))),
        Err(fault) if fault.kind() == ErrorKind::NotFound => Ok(Some("is missing".to_string())),
        Err(fault) => Err(format!("{}: {fault}", file.path)),
    }
}

/// The first line in which two files differ, as it is and as it is described.
fn first_difference(held: &[u8], described: &[u8]) -> String {
    const SHOWN: usize = 60;
    let (held, described) = (lines_of(held), lines_of(described));
    let same = held.iter().zip(&described).take_while(|(one, other)| one == other).count();
    let line = |lines: &[&[u8]]| {
        let bytes = lines.get(same).copied().unwrap_or_default();
        bytes[..bytes.len().min(SHOWN)].escape_ascii().to_string()
    };
    format!("line {} is '{}' and is described as '{}'", same + 1, line(&held), line(&described))
}

/// Files in the directories that hold only described ones, which no description makes.
fn strays(made: &[Made]) -> Result<Vec<String>, String> {
    let mut strays = Vec::new();
    for (directory, ending) in files::HELD {
        let entries = fs::read_dir(Path::new(ROOT).join(directory)).map_err(|fault| format!("{directory}: {fault}"))?;
        for entry in entries {
            let name = entry.map_err(|fault| format!("{directory}: {fault}"))?.file_name();
            let path = format!("{directory}/{}", name.to_string_lossy());
            if path.ends_with(ending) && made.iter().all(|file| file.path != path) {
                strays.push(path);
            }
        }
    }
    strays.sort();
    Ok(strays)
}
