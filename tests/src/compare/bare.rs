//! The proved library on memory blocks of exactly the lent lengths, without guard bytes: a memory
//! checker then sees every read or write beside a file, a plan, a typed text or an area.

use crate::areas::{Areas, Arrays, Outputs};
use crate::boundary;
use crate::compare::{Calls, PartCall, Tested};
use crate::lent::Lent;

pub const BARE: Calls = Calls {
    name: "few, every call",
    check: Tested { name: "few, check", call: check },
    price: Tested { name: "few, price", call: price },
    line: Tested { name: "few, line", call: line },
    list: Tested { name: "few, list", call: list },
    sheet: Tested { name: "few, sheet", call: sheet },
    write: Tested { name: "few, write", call: write },
    join: Tested { name: "few, join", call: join },
    parents: Tested { name: "few, parents", call: parents },
    read: Tested { name: "few, read", call: read },
};

/// Its comparison lends such blocks itself.
pub const BARE_PART: Tested<PartCall> = Tested { name: "few, line's part", call: boundary::line_part };

/// Calls with a copy of some bytes that are only to be read, and sees that they stay as they were.
fn lending<Answer>(bytes: &[u8], call: impl FnOnce(&[u8]) -> Answer) -> Answer {
    let block: Box<[u8]> = bytes.into();
    let answer = call(&block);
    assert!(*block == *bytes, "a call wrote into bytes that it may only read");
    answer
}

/// Calls with a copy of a result area, which then takes over what was written.
fn with_result(result: &mut [u8], call: impl FnOnce(&mut [u8]) -> u64) -> u64 {
    let mut block: Box<[u8]> = (*result).into();
    let number = call(&mut block);
    result.copy_from_slice(&block);
    number
}

fn check(file: &[u8]) -> u64 {
    lending(file, boundary::check)
}

fn price(file: &[u8], plan: &[u8], result: &mut [u8]) -> u64 {
    with_result(result, |block| lending(file, |file| lending(plan, |plan| boundary::price(file, plan, block))))
}

fn line(file: &[u8], typed: &[u8], result: &mut [u8]) -> u64 {
    with_result(result, |block| lending(file, |file| lending(typed, |typed| boundary::line(file, typed, block))))
}

fn list(file: &[u8], areas: &mut Areas) -> u64 {
    let mut blocks = areas.bare();
    let number = lending(file, |file| boundary::list(file, &mut blocks));
    areas.take(&blocks);
    number
}

fn sheet(file: &[u8], clinic: u64, areas: &mut Areas) -> u64 {
    let mut blocks = areas.bare();
    let number = lending(file, |file| boundary::sheet(file, clinic, &mut blocks));
    areas.take(&blocks);
    number
}

fn write(lent: &Lent, areas: &mut Outputs) -> u64 {
    let mut blocks = areas.bare();
    let block = lent.bare();
    let number = boundary::write(&block, &mut blocks);
    assert!(block == lent.bare(), "a call wrote into a region that it may only read");
    areas.take(&blocks);
    number
}

fn join(first: &[u8], second: &[u8], areas: &mut Outputs) -> u64 {
    let mut blocks = areas.bare();
    let number = lending(first, |first| lending(second, |second| boundary::join(first, second, &mut blocks)));
    areas.take(&blocks);
    number
}

fn parents(file: &[u8], areas: &mut Outputs) -> u64 {
    let mut blocks = areas.bare();
    let number = lending(file, |file| boundary::parents(file, &mut blocks));
    areas.take(&blocks);
    number
}

fn read(file: &[u8], areas: &mut Arrays) -> u64 {
    let mut blocks = areas.bare();
    let number = lending(file, |file| boundary::read(file, &mut blocks));
    areas.take(&blocks);
    number
}
