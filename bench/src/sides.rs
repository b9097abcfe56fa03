//! The sides of a case that are timed, and their times: measured, written as a line, and parsed from one.

use crate::calls::{LIBRARY, PLAIN};
use crate::cases::{self, Case};
use crate::time;

/// The library, plain Rust, restoring, and reading once.
const SIDES: usize = 4;

/// Nanoseconds of one time of each side: infinite, as the smallest of no samples, if a case lacks the side.
pub type Times = [f64; SIDES];

/// The times before anything is measured.
pub const UNMEASURED: Times = [f64::INFINITY; SIDES];

/// Which sides a case has: not every call changes something, or is lent something to go through.
pub fn sides(case: &mut dyn Case) -> [bool; SIDES] {
    [true, true, case.restore(1), !case.lent().is_empty()]
}

pub fn measure(case: &mut dyn Case) -> Times {
    time::fastest(sides(case), case.samples(), |side, times| match side {
        0 => case.run(&LIBRARY, times),
        1 => case.run(&PLAIN, times),
        2 => {
            case.restore(times);
        }
        _ => cases::read(case.lent(), times),
    })
}

/// The times as a line. Rust writes as many digits as it takes to read the same number back.
pub fn line(times: &Times) -> String {
    times.map(|time| time.to_string()).join(" ")
}

/// The times in a line, if it holds one for each side that the case has, and infinity for the others.
pub fn parsed(line: &str, sides: [bool; SIDES]) -> Option<Times> {
    let times: Vec<f64> = line.split(' ').map(str::parse).collect::<Result<_, _>>().ok()?;
    let times = Times::try_from(times).ok()?;
    let fits = |(time, has): (&f64, bool)| *time > 0.0 && time.is_finite() == has;
    times.iter().zip(sides).all(fits).then_some(times)
}

/// The smaller time of each side.
pub fn smaller(one: &Times, other: &Times) -> Times {
    std::array::from_fn(|side| one[side].min(other[side]))
}
