//! Compares the proved library with the independent program. Ends with status 1 at the first difference.

use rigbasen_tests::compare;
use std::path::PathBuf;
use std::process::ExitCode;

const USAGE: &str = "compare [--seed N] [--count M] [--printer PROGRAM], or compare --few [--seed N]";

/// What the command line asks for; a count or a printer only where it does not ask for few.
#[derive(Default)]
struct Asked {
    seed: Option<u64>,
    count: Option<usize>,
    few: bool,
    printer: Option<PathBuf>,
}

fn main() -> ExitCode {
    let Some(asked) = read_arguments(std::env::args().skip(1)) else {
        eprintln!("{USAGE}");
        return ExitCode::from(2);
    };
    match run(&asked) {
        Ok(()) => {
            println!("no difference");
            ExitCode::SUCCESS
        }
        Err(difference) => {
            difference.print();
            ExitCode::FAILURE
        }
    }
}

fn run(asked: &Asked) -> Result<(), compare::report::Difference> {
    let seed = asked.seed.unwrap_or(1);
    println!("seed {seed}; after the cases, each number and how often it came up");
    if asked.few {
        return compare::run_few(seed);
    }
    compare::run_all(seed, asked.count.unwrap_or(4_800), asked.printer.as_deref())
}

/// Nothing where an argument is unknown, comes twice, or would be left unused.
fn read_arguments(mut arguments: impl Iterator<Item = String>) -> Option<Asked> {
    let mut asked = Asked::default();
    while let Some(argument) = arguments.next() {
        let again = match &argument[..] {
            "--seed" => asked.seed.replace(arguments.next()?.parse().ok()?).is_some(),
            "--count" => asked.count.replace(arguments.next()?.parse().ok()?).is_some(),
            "--printer" => asked.printer.replace(arguments.next()?.into()).is_some(),
            "--few" => std::mem::replace(&mut asked.few, true),
            _ => return None,
        };
        if again {
            return None;
        }
    }
    let unused = asked.few && (asked.count.is_some() || asked.printer.is_some());
    (!unused && asked.count != Some(0)).then_some(asked)
}
