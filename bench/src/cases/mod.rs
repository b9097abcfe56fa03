//! What is timed: a call with its arguments, repeated.

mod lists;
mod tables;
mod words;

use crate::calls::{Calls, LIBRARY, PLAIN};
use crate::time::{hide, keep};

pub trait Case {
    /// The call.
    fn call(&self) -> &'static str;

    /// What it is given.
    fn given(&self) -> String;

    /// Calls so many times, and puts what a call changes right before each. The record of further values stays.
    fn run(&mut self, calls: &Calls, times: u64);

    /// What a call left: the answer, the record and what was lent.
    fn outcome(&mut self, calls: &Calls) -> Vec<u64>;

    /// Puts right what a call changes, so many times, if it changes something.
    fn restore(&mut self, _times: u64) -> bool {
        false
    }

    /// The words that a call is lent to go through.
    fn lent(&self) -> &[u64] {
        &[]
    }

    /// How many calls are one time.
    fn calls_each(&self) -> u64 {
        1
    }

    /// How many samples of each side a measuring process takes: few, as there are many processes.
    fn samples(&self) -> usize {
        3
    }
}

/// The words of a record that has no other.
pub fn words_of<T>(record: &T) -> &[u64] {
    // SAFETY: the records of further values are 64-bit words, without gaps.
    unsafe { std::slice::from_raw_parts((record as *const T).cast(), std::mem::size_of::<T>() / 8) }
}

/// The answer, the words of the record, and what was lent.
pub fn outcome_of<T>(answer: u32, record: &T, lent: &[u64]) -> Vec<u64> {
    let mut words = vec![u64::from(answer)];
    words.extend_from_slice(words_of(record));
    words.extend_from_slice(lent);
    words
}

/// Reads what is lent once, so many times.
pub fn read(words: &[u64], times: u64) {
    for _ in 0..times {
        let words = &words[..hide(words.len())];
        let mut sum = words.iter().fold(0u64, |sum, word| sum.wrapping_add(*word));
        keep(&mut sum);
    }
}

/// Both sides leave the same, and it is what the case is meant to show.
pub fn check(case: &mut dyn Case) {
    let library = case.outcome(&LIBRARY);
    let plain = case.outcome(&PLAIN);
    assert!(library == plain, "{}, {}: the library and plain Rust differ", case.call(), case.given());
}

pub fn all() -> Vec<Box<dyn Case>> {
    let mut cases = tables::all();
    cases.extend(lists::all());
    cases.extend(words::all());
    cases
}
