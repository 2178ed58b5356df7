//! The comparisons: what the proved library answers, beside the independent program.

pub mod asked;
pub mod bare;
pub mod check;
pub mod clinic_pairs;
pub mod every_call;
pub mod join;
pub mod large;
pub mod line;
pub mod list;
pub mod paper;
pub mod parents;
pub mod part;
pub mod price;
pub mod printing;
pub mod read;
pub mod report;
pub mod shares;
pub mod sheet;
pub mod version;
pub mod write;
pub mod wrong;

use crate::areas::{Areas, Arrays, Outputs};
use crate::boundary::Part;
use crate::generate::small;
use crate::lent::Lent;
use crate::{baseline, boundary};
use bare::{BARE, BARE_PART};
use report::{Difference, Tally};
use std::path::Path;
use std::thread;

/// A call under test, with the name that its lines of the report begin with.
#[derive(Clone, Copy)]
pub struct Tested<Call> {
    pub name: &'static str,
    pub call: Call,
}

pub type CheckCall = fn(&[u8]) -> u64;
pub type PriceCall = fn(&[u8], &[u8], &mut [u8]) -> u64;
pub type LineCall = fn(&[u8], &[u8], &mut [u8]) -> u64;
pub type ListCall = fn(&[u8], &mut Areas) -> u64;
pub type SheetCall = fn(&[u8], u64, &mut Areas) -> u64;
pub type WriteCall = fn(&Lent, &mut Outputs) -> u64;
pub type JoinCall = fn(&[u8], &[u8], &mut Outputs) -> u64;
pub type ParentsCall = fn(&[u8], &mut Outputs) -> u64;
pub type ReadCall = fn(&[u8], &mut Arrays) -> u64;
pub type VersionCall = fn() -> u64;

/// Line's entry in Rattle: its number, and the part that it hands back.
pub type PartCall = fn(&[u8], &[u8]) -> (u64, Option<Part>);

/// The nine calls of one program that take a file or make one.
#[derive(Clone, Copy)]
pub struct Calls {
    pub name: &'static str,
    pub check: Tested<CheckCall>,
    pub price: Tested<PriceCall>,
    pub line: Tested<LineCall>,
    pub list: Tested<ListCall>,
    pub sheet: Tested<SheetCall>,
    pub write: Tested<WriteCall>,
    pub join: Tested<JoinCall>,
    pub parents: Tested<ParentsCall>,
    pub read: Tested<ReadCall>,
}

pub const LIBRARY: Calls = Calls {
    name: "every call",
    check: Tested { name: "check", call: boundary::check },
    price: Tested { name: "price", call: boundary::price },
    line: Tested { name: "line", call: boundary::line },
    list: Tested { name: "list", call: boundary::list },
    sheet: Tested { name: "sheet", call: boundary::sheet },
    write: Tested { name: "write", call: boundary::write },
    join: Tested { name: "join", call: boundary::join },
    parents: Tested { name: "parents", call: boundary::parents },
    read: Tested { name: "read", call: boundary::read },
};

pub const VERSION: Tested<VersionCall> = Tested { name: "version", call: boundary::version };

/// What line's entry hands back to a caller in Rattle.
pub const LINE_PART: Tested<PartCall> = Tested { name: "line's part", call: boundary::line_part };

pub const BASELINE: Calls = Calls {
    name: "baseline every call",
    check: Tested { name: "baseline check", call: baseline::calls::check },
    price: Tested { name: "baseline price", call: baseline::calls::price },
    line: Tested { name: "baseline line", call: baseline::calls::line },
    list: Tested { name: "baseline list", call: baseline::calls::list },
    sheet: Tested { name: "baseline sheet", call: baseline::calls::sheet },
    write: Tested { name: "baseline write", call: baseline::writer::write },
    join: Tested { name: "baseline join", call: baseline::joiner::join },
    parents: Tested { name: "baseline parents", call: baseline::parent_maker::parents },
    read: Tested { name: "baseline read", call: baseline::array_reader::read },
};

/// Runs every comparison up to the first difference: the library's, each line printed as soon as it
/// is done, and beside them those of the baseline and of the printing program, if there is one.
pub fn run_all(seed: u64, count: usize, printer: Option<&Path>) -> Result<(), Difference> {
    thread::scope(|scope| {
        let beside = scope.spawn(move || run_beside(seed, count, printer));
        version::run(VERSION, version::HEADER)?.print();
        let mut tallies = run_calls(LIBRARY, seed, count, Tally::print)?;
        for tally in run_large(seed, count)?.into_iter().chain(run_parts(seed, count)?) {
            tally.print();
            tallies.push(tally);
        }
        wrong::run()?.print();
        print_all(beside.join().expect("comparisons that end")?);
        Tally::together("all numbers", &tallies)?.print();
        Ok(())
    })
}

/// The library on regions with too many plans to walk, beside the baseline.
fn run_large(seed: u64, count: usize) -> Result<[Tally; 3], Difference> {
    let lists = large::lists(LIBRARY.list, seed, count / 10)?;
    let sheets = large::sheets(LIBRARY.sheet, seed, count / 10)?;
    Ok([lists, sheets, clinic_pairs::apart_large(LIBRARY.sheet, seed, count / 2)?])
}

/// Line's entry in Rattle, which only the proved library has.
fn run_parts(seed: u64, count: usize) -> Result<[Tally; 2], Difference> {
    Ok([part::regions(LINE_PART, seed, count / 2)?, part::faulty_files(LINE_PART, seed, count)?])
}

fn run_beside(seed: u64, count: usize, printer: Option<&Path>) -> Result<Vec<Tally>, Difference> {
    let mut tallies = run_calls(BASELINE, seed, count, |_| {})?;
    if let Some(program) = printer {
        tallies.push(printing::run(program, seed, count / 2)?);
    }
    Ok(tallies)
}

/// Every comparison of the calls of one program.
fn run_calls(calls: Calls, seed: u64, count: usize, done: fn(&Tally)) -> Result<Vec<Tally>, Difference> {
    let mut all = Vec::new();
    let mut add = |tallies: Vec<Tally>| {
        tallies.iter().for_each(done);
        all.extend(tallies);
    };
    add(vec![paper::run(calls)?]);
    add(check::run(calls.check, seed, count)?);
    add(every_call::run(calls, seed, count)?);
    add(price::run(calls.price, seed, count)?);
    add(line::run(calls.line, seed, count)?);
    add(list::run(calls.list, seed, count)?);
    add(sheet::run(calls.sheet, seed, count)?);
    add(shares::run(calls.sheet, seed, count)?);
    add(clinic_pairs::run(calls.sheet, seed, count)?);
    add(write::run(calls.write, seed, count)?);
    add(read::run(calls.read, seed, count)?);
    add(join::run(calls.join, seed, count)?);
    add(parents::run(calls.parents, seed, count)?);
    Ok(all)
}

/// Some dozens of regions and files through all calls, for a run under a memory checker.
pub fn run_few(seed: u64) -> Result<(), Difference> {
    version::run(VERSION, version::HEADER)?.print();
    paper::run(BARE)?.print();
    print_all(check::run(BARE.check, seed, 20)?);
    every_call::damaged_files(BARE, seed, 60)?.print();
    every_call::random_files(BARE, seed, 60)?.print();
    print_all(price::run(BARE.price, seed, 24)?);
    run_few_lines(seed)?;
    for kind in small::KINDS {
        list::regions(BARE.list, kind, seed, 4)?.print();
    }
    list::faulty_files(BARE.list, seed, 24)?.print();
    sheet::regions(BARE.sheet, seed, 48)?.print();
    sheet::joined_regions(BARE.sheet, seed, 24)?.print();
    sheet::faulty_files(BARE.sheet, seed, 24)?.print();
    shares::small_regions(BARE.sheet, seed, 4)?.print();
    clinic_pairs::apart(BARE.sheet, seed, 24)?.print();
    large::lists(BARE.list, seed, 4)?.print();
    large::sheets(BARE.sheet, seed, 2)?.print();
    run_few_writes(seed)?;
    run_few_reads(seed)?;
    run_few_joins(seed)?;
    run_few_parents(seed)
}

/// Some of the comparisons of line; those of all changes of a typed text have thousands of cases.
fn run_few_lines(seed: u64) -> Result<(), Difference> {
    line::own_members(BARE.line, seed, 24)?.print();
    line::repeated_tables(BARE.line, seed, 12)?.print();
    line::other_members(BARE.line, seed, 12)?.print();
    line::spoiled_texts(BARE.line, seed, 12)?.print();
    line::long_texts(BARE.line, seed, 6)?.print();
    line::faulty_files(BARE.line, seed, 24)?.print();
    line::all_lengths(BARE.line, seed, 1)?.print();
    part::regions(BARE_PART, seed, 24)?.print();
    part::faulty_files(BARE_PART, seed, 24)?.print();
    Ok(())
}

/// Some of the comparisons of write; those of all counts and lengths have thousands of cases.
fn run_few_writes(seed: u64) -> Result<(), Difference> {
    write::good_regions(BARE.write, seed, 36)?.print();
    write::single_faults(BARE.write, seed, 6)?.print();
    write::double_faults(BARE.write, seed, 20)?.print();
    write::not_whole(BARE.write, seed, 48)?.print();
    write::large_numbers(BARE.write, seed, 96)?.print();
    write::limits(BARE.write, seed, 24)?.print();
    write::fixed_beds(BARE.write, seed, 4)?.print();
    write::round_trips(BARE.write, seed, 12)?.print();
    Ok(())
}

/// Some of the comparisons of read; those of all counts and lengths have thousands of cases.
fn run_few_reads(seed: u64) -> Result<(), Difference> {
    read::by_hand::run(BARE.read, seed, 1)?.print();
    read::files::good_files(BARE.read, seed, 36)?.print();
    read::refusals::one_fault(BARE.read, seed, 4)?.print();
    read::refusals::two_faults(BARE.read, seed, 1)?.print();
    read::back::files(BARE.read, seed, 8)?.print();
    read::back::regions(BARE.read, seed, 9)?.print();
    read::back::changed_regions(BARE.read, seed, 9)?.print();
    Ok(())
}

/// Some of the comparisons of join; those of all sizes and lengths have thousands of cases.
fn run_few_joins(seed: u64) -> Result<(), Difference> {
    join::by_hand::run(BARE.join, seed, 1)?.print();
    join::written::good_pairs(BARE.join, seed, 36)?.print();
    join::written::threes(BARE.join, seed, 4)?.print();
    join::refusals::either_file(BARE.join, seed, 2)?.print();
    join::refusals::two_faults(BARE.join, seed, 1)?.print();
    join::lists::small_pairs(BARE.join, seed, 12)?.print();
    join::lists::large_pairs(BARE.join, seed, 2)?.print();
    join::lists::sheets(BARE.join, seed, 6)?.print();
    Ok(())
}

/// Some of the comparisons of parents; those of all lengths and all choices have thousands of cases.
fn run_few_parents(seed: u64) -> Result<(), Difference> {
    parents::by_hand::run(BARE.parents, seed, 1)?.print();
    parents::written::good_files(BARE.parents, seed, 12)?.print();
    parents::refusals::one_fault(BARE.parents, seed, 4)?.print();
    parents::refusals::two_faults(BARE.parents, seed, 1)?.print();
    parents::refusals::parents_alone(BARE.parents, seed, 2)?.print();
    parents::refusals::parent_fields(BARE.parents, seed, 1)?.print();
    parents::answers::accepted_files(BARE.parents, seed, 6)?.print();
    parents::answers::refused_files(BARE.parents, seed, 12)?.print();
    Ok(())
}

fn print_all(tallies: Vec<Tally>) {
    for tally in tallies {
        tally.print();
    }
}
