//! The measuring processes: the program starts itself and its like again and again, and for each side of a case the smallest time of all counts.

use crate::cases::Case;
use crate::sides::{self, Times};
use std::path::{Path, PathBuf};
use std::process::{Command, Stdio};

/// The first argument of a measuring process. The second says which calls are wanted.
pub const MEASURE: &str = "--measure";

/// Where the loader puts code and stack, and what the branch predictors make of it, is chance, and settled anew in each process: a small
/// call may take a fifth longer in most of them, on one side and not on the other. Among so many each side meets what suits it.
const PROCESSES: usize = 100;

/// What a measuring process does: it prints a line of times for each case.
pub fn measure(cases: &mut [Box<dyn Case>]) {
    for case in cases {
        println!("{}", sides::line(&sides::measure(case.as_mut())));
    }
}

/// The smallest times of each case in all measuring processes, one process after the other. The others are the same program with its code
/// elsewhere; all have their turns.
pub fn smallest(wanted: &str, others: Vec<PathBuf>, cases: &mut [Box<dyn Case>]) -> Result<Vec<Times>, String> {
    let own = std::env::current_exe().map_err(|error| format!("The program cannot find itself: {}.", error))?;
    let programs: Vec<PathBuf> = std::iter::once(own).chain(others).collect();
    let mut best = vec![sides::UNMEASURED; cases.len()];
    for program in programs.iter().cycle().take(PROCESSES) {
        let times = parsed(&printed(program, wanted)?, cases).ok_or("A measuring process printed something else than times.")?;
        best = best.iter().zip(&times).map(|(best, times)| sides::smaller(best, times)).collect();
    }
    Ok(best)
}

/// What a measuring process printed, once it has ended well. What it says of a failure goes to this process' standard error.
fn printed(program: &Path, wanted: &str) -> Result<String, String> {
    let mut command = Command::new(program);
    command.args([MEASURE, wanted]).stdin(Stdio::null()).stderr(Stdio::inherit());
    let output = command.output().map_err(|error| format!("A measuring process cannot be started: {}.", error))?;
    if !output.status.success() {
        return Err(format!("A measuring process failed: {}.", output.status));
    }
    Ok(String::from_utf8_lossy(&output.stdout).into_owned())
}

/// The times of each case, if there is a line for each and no other.
fn parsed(printed: &str, cases: &mut [Box<dyn Case>]) -> Option<Vec<Times>> {
    if printed.lines().count() != cases.len() {
        return None;
    }
    printed.lines().zip(cases).map(|(line, case)| sides::parsed(line, sides::sides(case.as_mut()))).collect()
}
