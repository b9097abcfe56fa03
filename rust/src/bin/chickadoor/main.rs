//! Judges a text of operations: reads a state, a target and steps in plain words, and says accepted, or why not.
//!
//! `chickadoor --help` says how the text is written. The exit status is 0 for accepted, 1 for refused, 2 for a text that cannot be read.
#[cfg(test)]
mod draw;
mod faults;
mod phrase;
mod refusals;
mod report;
mod source;
mod state_text;
mod step_text;
mod target_text;
mod text;

use std::ffi::OsString;
use std::io::Write;
use std::process::exit;

const HELP: &str = concat!(include_str!("help.txt"), include_str!("example.txt"));

fn main() {
    let names: Vec<OsString> = std::env::args_os().skip(1).collect();
    if names.iter().any(|name| name == "--help" || name == "-h") {
        say(HELP);
        return;
    }
    match source::read(&names).and_then(|sources| text::parse(&sources)) {
        Ok(text) => {
            let (accepted, words) = report::judge(&text);
            say(&words);
            say("\n");
            exit(if accepted { 0 } else { 1 });
        }
        Err(message) => {
            let _ = writeln!(std::io::stderr(), "{}", message);
            exit(2);
        }
    }
}

/// That nobody reads the words changes nothing of the verdict, which the exit status has.
fn say(text: &str) {
    let _ = std::io::stdout().write_all(text.as_bytes());
}
