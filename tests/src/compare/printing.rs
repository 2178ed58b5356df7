//! The printing program: what it prints for a file on its standard input, beside the text that the
//! independent program gives.

use crate::compare::report::{readable, Difference, Tally};
use crate::compare::{paper, Tested};
use crate::generate::{faulty, small, spelling};
use crate::outcomes::Outcomes;
use crate::printed;
use crate::random::Random;
use std::io::{ErrorKind, Write};
use std::path::Path;
use std::process::{Command, Stdio};
use std::thread;

/// What is printed for a file, or why there is no text.
pub type Text = Result<Vec<u8>, String>;

pub type Printing<'a> = &'a dyn Fn(&[u8]) -> Text;

/// A program, given files on its standard input.
pub fn run(program: &Path, seed: u64, count: usize) -> Result<Tally, Difference> {
    texts(Tested { name: "printing program", call: &|file| output_of(program, file) }, seed, count)
}

/// The paper's files, small regions of every kind, and files that are refused.
pub fn texts(tested: Tested<Printing>, seed: u64, count: usize) -> Result<Tally, Difference> {
    let mut tally = Tally::of(tested.name);
    let mut random = Random::of(seed, "printing program");
    for file in paper::files() {
        compare(&mut tally, tested, &file)?;
    }
    for case in 0..count {
        let region = small::region(small::KINDS[case % small::KINDS.len()], &mut random);
        compare(&mut tally, tested, &spelling::file_of(&region))?;
        compare(&mut tally, tested, &faulty::file(case, &mut random))?;
    }
    tally.with_all(&[0, 1, 2, 3, 4, 5, 6, 7, 8, 9, 10, 13])
}

fn compare(tally: &mut Tally, tested: Tested<Printing>, file: &[u8]) -> Result<(), Difference> {
    let outcomes = Outcomes::of(file);
    let expected = printed::text(&outcomes);
    let given = (tested.call)(file);
    if given.as_deref() == Ok(expected.as_bytes()) {
        tally.count(outcomes.listed().err().unwrap_or(0));
        return Ok(());
    }
    let given = given.map_or_else(|fault| fault, |text| readable(&text));
    let answers = vec![
        ("independent program".to_string(), format!("\n{}", readable(expected.as_bytes()))),
        (tested.name.to_string(), format!("\n{given}")),
    ];
    Err(Difference { kind: tally.kind().to_string(), file: file.to_vec(), answers })
}

/// What a program prints for a file on its standard input, where it ends with status 0 and nothing on
/// standard error. It may print before it has read the file, and need not read it to its end.
pub fn output_of(program: &Path, file: &[u8]) -> Text {
    let fault = |fault: std::io::Error| format!("{}: {fault}", program.display());
    let mut command = Command::new(program);
    command.stdin(Stdio::piped()).stdout(Stdio::piped()).stderr(Stdio::piped());
    let mut child = command.spawn().map_err(fault)?;
    let mut input = child.stdin.take().expect("piped");
    let (written, ended) = thread::scope(|scope| {
        let writing = scope.spawn(move || input.write_all(file));
        let ended = child.wait_with_output();
        (writing.join().expect("a writer that ends"), ended)
    });
    let ended = ended.map_err(fault)?;
    match written {
        Err(broken) if broken.kind() != ErrorKind::BrokenPipe => Err(fault(broken)),
        _ if ended.status.success() && ended.stderr.is_empty() => Ok(ended.stdout),
        _ => Err(format!("{}, standard error: {}", ended.status, String::from_utf8_lossy(&ended.stderr))),
    }
}
