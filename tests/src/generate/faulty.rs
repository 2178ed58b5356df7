//! Faulty files for the calls that also lend areas.

use crate::generate::{damage, faults, layout_faults, small, spelling};
use crate::random::Random;
use crate::reader;

/// A file with a fault of each question in turn, or a damaged one. Where it is accepted after all,
/// it has few enough plans to walk them.
pub fn file(case: usize, random: &mut Random) -> Vec<u8> {
    loop {
        let file = match case % 12 {
            0 => faults::too_long(random),
            1 => layout_faults::file(random),
            2 | 3 => damage::damaged(&spelling::file_of(&small::any_region(random)), random),
            question => faults::file_with_fault(question as u64 - 1, random),
        };
        let plans = reader::read(&file).map_or(0, |region| region.plan_count());
        if plans <= small::MOST_PLANS {
            return file;
        }
    }
}
