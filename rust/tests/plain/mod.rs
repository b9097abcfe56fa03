//! A plain implementation of 01 (the requirements), written from its words and from READINGS: the oracle of the tests and the
//! baseline of the benchmarks. Every call answers 01's number and a record in which everything that 01 does not name is 0.
#![allow(dead_code, unused_imports)]

mod answer;
mod entry;
mod execute;
mod goes;
mod judge;
mod listing;
mod operand;
pub mod record;
mod slot;
mod span;
mod state;
mod table;
mod words;

pub use execute::{execute, run};
pub use judge::judge;
pub use listing::{list, tail};
pub use operand::{read_operand, write_operand};
pub use table::{insert, look_up, read_slot};
pub use words::{build, decode};
