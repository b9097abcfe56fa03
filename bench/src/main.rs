//! The benchmark: the library's time for each call, beside plain Rust's and that of reading the table once, and the stack it uses.

mod agree;
mod calls;
mod cases;
mod inputs;
mod placement;
mod plain;
mod records;
mod rounds;
mod shim;
mod sides;
mod stack;
mod time;

use calls::{LIBRARY, PLAIN};
use cases::Case;
use sides::Times;
use std::path::PathBuf;
use std::process::ExitCode;

/// The most stack that a call may use, in bytes.
const MOST_STACK: usize = 16 * 1024;

fn main() -> ExitCode {
    let mut arguments = std::env::args().skip(1);
    let first = arguments.next().unwrap_or_default();
    if first == rounds::MEASURE {
        rounds::measure(&mut wanted_cases(&arguments.next().unwrap_or_default()));
        return ExitCode::SUCCESS;
    }
    match report(&first, arguments.map(PathBuf::from).collect()) {
        Ok(()) => ExitCode::SUCCESS,
        Err(what) => {
            eprintln!("{}", what);
            ExitCode::FAILURE
        }
    }
}

/// The cases of the calls with this in their name.
fn wanted_cases(wanted: &str) -> Vec<Box<dyn Case>> {
    let mut cases = cases::all();
    cases.retain(|case| case.call().contains(wanted));
    cases
}

/// Checks, measures and prints: whatever is to be found out but once is, before anything is timed.
fn report(wanted: &str, others: Vec<PathBuf>) -> Result<(), String> {
    agree::check();
    let mut cases = wanted_cases(wanted);
    cases.iter_mut().for_each(|case| cases::check(case.as_mut()));
    stack::on_large_stack(print_stack);
    let times = rounds::smallest(wanted, others, &mut cases)?;
    print_times(&cases, &times);
    Ok(())
}

fn print_times(cases: &[Box<dyn Case>], times: &[Times]) {
    println!("| call | given | library ns | plain Rust ns | ratio | reading once ns | times reading |");
    println!("|---|---|---:|---:|---:|---:|---:|");
    for (case, times) in cases.iter().zip(times) {
        print_time(case.as_ref(), times);
    }
}

fn print_time(case: &dyn Case, times: &Times) {
    let [library, plain, restore, read] = *times;
    // Putting the table right is in both sides' time, and is measured by itself.
    let restore = if restore.is_finite() { restore } else { 0.0 };
    let each = case.calls_each() as f64;
    let (library, plain) = ((library - restore) / each, (plain - restore) / each);
    let (read, times) =
        if read.is_finite() { (format!("{:.0}", read), format!("{:.1}", library / read)) } else { ("-".into(), "-".into()) };
    println!(
        "| {} | {} | {} | {} | {:.2} | {} | {} |",
        case.call(),
        case.given(),
        nanoseconds(library),
        nanoseconds(plain),
        library / plain,
        read,
        times
    );
}

fn nanoseconds(number: f64) -> String {
    if number < 100.0 {
        format!("{:.1}", number)
    } else {
        format!("{:.0}", number)
    }
}

/// The most stack that each call uses in the cases, that of its arguments included.
fn print_stack() {
    println!("| call | library's stack, bytes | plain Rust's |");
    println!("|---|---:|---:|");
    let mut most: Vec<(&'static str, usize, usize)> = Vec::new();
    for mut case in cases::all() {
        let own = stack::depth(&mut || case.run(&LIBRARY, 0));
        let library = stack::depth(&mut || case.run(&LIBRARY, 1)) - own;
        let plain = stack::depth(&mut || case.run(&PLAIN, 1)) - own;
        match most.iter_mut().find(|(call, _, _)| *call == case.call()) {
            Some(line) => *line = (line.0, line.1.max(library), line.2.max(plain)),
            None => most.push((case.call(), library, plain)),
        }
    }
    for (call, library, plain) in most {
        assert!(library <= MOST_STACK, "{} uses {} bytes of stack", call, library);
        println!("| {} | {} | {} |", call, library, plain);
    }
    println!();
}
