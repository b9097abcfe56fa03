//! What shim.c does for the library, for plain Rust: pointers to records come in, and records by value go on, in one call more.

use crate::plain;
use crate::records::*;

pub unsafe extern "C" fn insert(table: *mut u64, words: usize, entry: *const Entry, output: u64, out: *mut Inserted) -> u32 {
    plain::insert(table, words, *entry, output, out)
}

pub unsafe extern "C" fn look_up(
    table: *const u64,
    words: usize,
    state: *const State,
    regime: u64,
    asid: u16,
    address: u64,
    out: *mut Found,
) -> u32 {
    plain::look_up(table, words, *state, regime, asid, address, out)
}

pub unsafe extern "C" fn execute(
    table: *mut u64,
    words: usize,
    state: *const State,
    word: u64,
    xt: u64,
    xt2: u64,
    out: *mut Executed,
) -> u32 {
    plain::execute(table, words, *state, word, xt, xt2, out)
}

pub unsafe extern "C" fn run(
    table: *mut u64,
    words: usize,
    state: *const State,
    list: *const u64,
    list_words: usize,
    out: *mut Ran,
) -> u32 {
    plain::run(table, words, *state, list, list_words, out)
}

pub unsafe extern "C" fn judge(state: *const State, target: *const Target, list: *const u64, list_words: usize, out: *mut Judged) -> u32 {
    plain::judge(*state, *target, list, list_words, out)
}

pub unsafe extern "C" fn build(operation: *const Operation, out: *mut Built) -> u32 {
    plain::build(*operation, out)
}

pub unsafe extern "C" fn read_operand(told: *const Told, xt: u64, xt2: u64, out: *mut Fields) -> u32 {
    plain::read_operand(*told, xt, xt2, out)
}

pub unsafe extern "C" fn write_operand(told: *const Told, fields: *const Fields, out: *mut Words) -> u32 {
    plain::write_operand(*told, *fields, out)
}
