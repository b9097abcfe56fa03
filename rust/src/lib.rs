//! Chickadoor for Rust: Arm's TLB range invalidation for emulated boards.
//!
//! Safe types over the proved archive that `./archive` writes. A [`Table`] is lent its words, and nothing is kept between calls. Every call
//! answers, whatever it is given: a refusal is an error that says why, and leaves the table as it was.
//!
//! - [`Table`] holds translation entries: insert, look up, execute an instruction, run a list of steps.
//! - [`judge`] holds a list of steps against a [`Target`], for every table there could be.
//! - [`Operation`] reads and builds instruction words, [`Told`] reads and writes their operands, [`list`] lists the operations in machine code.
//! - [`raw`] has the records and functions of the C header as they are.
//!
//! The archive is for x86-64. The feature `archive`, which is on unless it is turned off, links it: from the folder that `CHICKADOOR_ARCHIVE` names, or from
//! the project's `target/staticlib`. Without the feature the crate compiles for any machine, and a program that calls it does not link.
#![cfg_attr(feature = "archive", doc = include_str!("example.md"))]
#![warn(missing_docs)]

mod entry;
mod error;
mod ffi;
mod listing;
mod operand;
pub mod raw;
mod state;
mod table;
mod word;
mod words;

pub use entry::{Asids, Company, Entry, Granule, Regime, Security, Target};
pub use error::{ExecuteError, InsertError, JudgeError, LookUpError, RunError};
pub use listing::list;
pub use operand::{BreaksRule, Form, NoGranule, Operand, Told};
pub use state::{Board, Ds, Features, Flags, Hcr, Hcrx, Present, Scr, State, Traps};
pub use table::{judge, list_words, Found, Step, Table};
pub use word::{Name, Operation, Share};
