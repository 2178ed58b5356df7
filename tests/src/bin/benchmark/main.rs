//! Times of the proved library beside the baseline, both optimised, in one run:
//! `benchmark [--limit SECONDS] [FILE ..]`. Region files come from `generate::clinics`, which makes
//! regions of the same kind as the script `make_region`; the script's own files can be given too.

mod check_times;
mod fixed_times;
mod join_times;
mod line_times;
mod list_times;
mod parents_times;
mod read_times;
mod small_times;
mod timing;
mod write_times;

use std::process::ExitCode;
use std::time::Duration;

/// How long the baseline may search one region.
const LIMIT: Duration = Duration::from_secs(10);

fn main() -> ExitCode {
    match run(std::env::args().skip(1)) {
        Ok(()) => ExitCode::SUCCESS,
        Err(fault) => {
            eprintln!("benchmark [--limit SECONDS] [FILE ..]: {fault}");
            ExitCode::from(2)
        }
    }
}

fn run(mut arguments: impl Iterator<Item = String>) -> Result<(), String> {
    let mut limit = LIMIT;
    let mut given = Vec::new();
    while let Some(argument) = arguments.next() {
        if argument == "--limit" {
            let seconds = arguments.next().and_then(|seconds| seconds.parse().ok());
            limit = Duration::from_secs(seconds.ok_or("--limit needs a number of seconds")?);
        } else if argument.starts_with("--") {
            return Err(format!("{argument} is unknown"));
        } else {
            let file = std::fs::read(&argument).map_err(|fault| format!("{argument}: {fault}"))?;
            given.push((argument, file));
        }
    }
    small_times::print();
    check_times::print(&given);
    line_times::print(&given);
    write_times::print(&given);
    read_times::print(&given);
    join_times::print(&given);
    parents_times::print(&given);
    parents_times::print_lists(limit);
    fixed_times::print(limit);
    list_times::print(&given, limit);
    Ok(())
}
