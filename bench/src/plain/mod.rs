//! The same rules on the same layout in plain Rust, written for speed and with no proof: what the library is measured against.
//! The functions here take what the C interface takes, records by value among it, and answer as it does; like the library's they are not inlined.

mod access;
mod answer;
mod judge;
mod listing;
mod operand;
mod slot;
mod state;
mod tables;
mod words;
mod work;

use crate::records::*;
use std::slice::{from_raw_parts, from_raw_parts_mut};

#[inline(never)]
pub unsafe extern "C" fn insert(table: *mut u64, words: usize, entry: Entry, output: u64, out: *mut Inserted) -> u32 {
    tables::insert(from_raw_parts_mut(table, words), &entry, output, &mut *out)
}

#[inline(never)]
pub unsafe extern "C" fn look_up(
    table: *const u64,
    words: usize,
    state: State,
    regime: u64,
    asid: u16,
    address: u64,
    out: *mut Found,
) -> u32 {
    tables::look_up(from_raw_parts(table, words), &state, regime, asid, address, &mut *out)
}

#[inline(never)]
pub unsafe extern "C" fn read_slot(table: *const u64, words: usize, slot: usize, out: *mut Slot) -> u32 {
    tables::read_slot(from_raw_parts(table, words), slot, &mut *out)
}

#[inline(never)]
pub unsafe extern "C" fn execute(
    table: *mut u64,
    words: usize,
    state: State,
    word: u64,
    xt: u64,
    xt2: u64,
    out: *mut Executed,
) -> u32 {
    tables::execute(from_raw_parts_mut(table, words), &state, word, xt, xt2, &mut *out)
}

#[inline(never)]
pub unsafe extern "C" fn run(
    table: *mut u64,
    words: usize,
    state: State,
    list: *const u64,
    list_words: usize,
    out: *mut Ran,
) -> u32 {
    tables::run(from_raw_parts_mut(table, words), &state, from_raw_parts(list, list_words), &mut *out)
}

#[inline(never)]
pub unsafe extern "C" fn judge(state: State, target: Target, list: *const u64, list_words: usize, out: *mut Judged) -> u32 {
    judge::judge(&state, &target, from_raw_parts(list, list_words), &mut *out)
}

#[inline(never)]
pub unsafe extern "C" fn decode(word: u64, out: *mut Operation) -> u32 {
    words::decode(word, &mut *out)
}

#[inline(never)]
pub unsafe extern "C" fn build(operation: Operation, out: *mut Built) -> u32 {
    words::build(&operation, &mut *out)
}

#[inline(never)]
pub unsafe extern "C" fn read_operand(told: Told, xt: u64, xt2: u64, out: *mut Fields) -> u32 {
    operand::read_operand(&told, xt, xt2, &mut *out)
}

#[inline(never)]
pub unsafe extern "C" fn write_operand(told: Told, fields: Fields, out: *mut Words) -> u32 {
    operand::write_operand(&told, &fields, &mut *out)
}

#[inline(never)]
pub unsafe extern "C" fn list(code: *const u8, code_bytes: usize, at: u64, text: *mut u8, text_bytes: usize, out: *mut Listed) -> u32 {
    listing::list(from_raw_parts(code, code_bytes), at, from_raw_parts_mut(text, text_bytes), &mut *out);
    answer::DONE
}

#[inline(never)]
pub unsafe extern "C" fn tail(left: usize, text: *mut u8, text_bytes: usize, out: *mut Tailed) -> u32 {
    listing::tail(left, from_raw_parts_mut(text, text_bytes), &mut *out);
    answer::DONE
}
