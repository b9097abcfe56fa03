//! Timing: the fastest of some samples, each long enough for the clock, all sides in turn.

use std::arch::asm;

/// Short, as many processes take samples; but in samples much shorter the clock is out by some per cent.
const SAMPLE_NANOSECONDS: u64 = 2_000_000;
/// A work is done so many times in a sample, however long that lasts: in the first ones the branch predictors learn it again.
const LEAST_TIMES: u64 = 100;

#[repr(C)]
struct Timespec {
    seconds: i64,
    nanoseconds: i64,
}

extern "C" {
    // Of the C library that Rust's own links.
    fn clock_gettime(clock: i32, time: *mut Timespec) -> i32;
}

/// The processor's time of this thread (Linux' CLOCK_THREAD_CPUTIME_ID): what others do on the machine is not in it.
fn now() -> u64 {
    let mut time = Timespec { seconds: 0, nanoseconds: 0 };
    // SAFETY: the record is the one that 64-bit Linux writes.
    let failed = unsafe { clock_gettime(3, &mut time) };
    assert_eq!(failed, 0, "no clock of processor time");
    time.seconds as u64 * 1_000_000_000 + time.nanoseconds as u64
}

/// Nanoseconds of one time of each of N works that is wanted: `run(k, times)` does work k so many times. Every work has a sample in each turn.
pub fn fastest<const N: usize>(wanted: [bool; N], samples: usize, mut run: impl FnMut(usize, u64)) -> [f64; N] {
    let works: Vec<usize> = (0..N).filter(|k| wanted[*k]).collect();
    let mut times = [0; N];
    let mut best = [f64::INFINITY; N];
    for &k in &works {
        times[k] = enough(|times| run(k, times));
    }
    for _ in 0..samples {
        for &k in &works {
            let taken = sample(|times| run(k, times), times[k]);
            best[k] = best[k].min(taken as f64 / times[k] as f64);
        }
    }
    best
}

/// How many times last as long as a sample should.
fn enough(mut run: impl FnMut(u64)) -> u64 {
    let mut times = LEAST_TIMES;
    loop {
        let taken = sample(&mut run, times);
        if taken >= SAMPLE_NANOSECONDS {
            return times;
        }
        // A little more than it seems to want, but no more than eight times as often at once.
        let wanted = times * SAMPLE_NANOSECONDS * 11 / 10 / taken.max(1);
        times = wanted.clamp(times + 1, 8 * times);
    }
}

fn sample(mut run: impl FnMut(u64), times: u64) -> u64 {
    let start = now();
    run(times);
    now() - start
}

/// Gives a number back in a way that the compiler cannot see through.
pub fn hide(mut number: usize) -> usize {
    // SAFETY: no instruction.
    unsafe { asm!("/* {0} */", inout(reg) number, options(nomem, nostack, preserves_flags)) };
    number
}

/// Makes the compiler believe that something is read and may be changed.
pub fn keep<T: ?Sized>(thing: &mut T) {
    // SAFETY: no instruction.
    unsafe { asm!("/* {0} */", in(reg) thing as *mut T as *mut u8, options(nostack, preserves_flags)) };
}
