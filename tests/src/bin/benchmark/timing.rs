//! Times of programs, taken in turn so that what else the machine does meets all of them.

use std::hint::black_box;
use std::time::{Duration, Instant};

/// How long the repetitions of one case may take together, about.
const TOGETHER: Duration = Duration::from_millis(1_500);
const MOST_REPETITIONS: u32 = 5_001;

/// The times of one program.
pub struct Times {
    pub median: Duration,
    pub least: Duration,
}

impl Times {
    fn of(mut times: Vec<Duration>) -> Times {
        times.sort();
        Times { median: times[times.len() / 2], least: times[0] }
    }

    /// The times of one of so many calls.
    pub fn each_of(self, calls: u32) -> Times {
        Times { median: self.median / calls, least: self.least / calls }
    }

    /// In microseconds: the median, and the least in brackets.
    pub fn text(&self) -> String {
        format!("{:.1} ({:.1})", microseconds(self.median), microseconds(self.least))
    }

    /// The same with two digits, for calls that take less than a microsecond.
    pub fn short_text(&self) -> String {
        format!("{:.2} ({:.2})", microseconds(self.median), microseconds(self.least))
    }

    /// In seconds, for calls that take long.
    pub fn long_text(&self) -> String {
        format!("{:.2} ({:.2})", self.median.as_secs_f64(), self.least.as_secs_f64())
    }
}

pub fn microseconds(time: Duration) -> f64 {
    time.as_secs_f64() * 1e6
}

/// How many times larger the first is, by medians and, in brackets, by least times.
pub fn ratio(first: &Times, second: &Times) -> String {
    let of = |one: Duration, other: Duration| one.as_secs_f64() / other.as_secs_f64();
    format!("{:.2} ({:.2})", of(first.median, second.median), of(first.least, second.least))
}

/// Runs both in turn.
pub fn in_turn(mut one: impl FnMut() -> u64, mut other: impl FnMut() -> u64) -> (Times, Times, u32) {
    let ([one, other], repetitions) = all_in_turn([&mut one, &mut other]);
    (one, other, repetitions)
}

/// Runs all in turn, as often as the time allows, at least three times each. What they give is the number
/// that a call answers.
pub fn all_in_turn<const N: usize>(mut programs: [&mut dyn FnMut() -> u64; N]) -> ([Times; N], u32) {
    let once: Duration = programs.iter_mut().map(timed).sum();
    let fitting = TOGETHER.as_nanos() / once.as_nanos().max(1);
    let repetitions = fitting.clamp(3, u128::from(MOST_REPETITIONS)) as u32;
    let mut times = [const { Vec::new() }; N];
    for _ in 0..repetitions {
        for (program, times) in programs.iter_mut().zip(&mut times) {
            times.push(timed(program));
        }
    }
    (times.map(Times::of), repetitions)
}

fn timed(program: &mut &mut dyn FnMut() -> u64) -> Duration {
    let start = Instant::now();
    black_box(program());
    start.elapsed()
}
