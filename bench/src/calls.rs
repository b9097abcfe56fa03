//! The twelve calls as one record of functions, the library's and plain Rust's: both are called in the same way.

use crate::plain;
use crate::records::*;
use crate::shim;

pub struct Calls {
    pub insert: unsafe extern "C" fn(*mut u64, usize, *const Entry, u64, *mut Inserted) -> u32,
    pub look_up: unsafe extern "C" fn(*const u64, usize, *const State, u64, u16, u64, *mut Found) -> u32,
    pub read_slot: unsafe extern "C" fn(*const u64, usize, usize, *mut Slot) -> u32,
    pub execute: unsafe extern "C" fn(*mut u64, usize, *const State, u64, u64, u64, *mut Executed) -> u32,
    pub run: unsafe extern "C" fn(*mut u64, usize, *const State, *const u64, usize, *mut Ran) -> u32,
    pub judge: unsafe extern "C" fn(*const State, *const Target, *const u64, usize, *mut Judged) -> u32,
    pub decode: unsafe extern "C" fn(u64, *mut Operation) -> u32,
    pub build: unsafe extern "C" fn(*const Operation, *mut Built) -> u32,
    pub read_operand: unsafe extern "C" fn(*const Told, u64, u64, *mut Fields) -> u32,
    pub write_operand: unsafe extern "C" fn(*const Told, *const Fields, *mut Words) -> u32,
    pub list: unsafe extern "C" fn(*const u8, usize, u64, *mut u8, usize, *mut Listed) -> u32,
    pub tail: unsafe extern "C" fn(usize, *mut u8, usize, *mut Tailed) -> u32,
}

extern "C" {
    // shim.c: records by value behind pointers.
    fn bench_insert(table: *mut u64, words: usize, entry: *const Entry, output: u64, out: *mut Inserted) -> u32;
    fn bench_look_up(table: *const u64, words: usize, state: *const State, regime: u64, asid: u16, address: u64, out: *mut Found) -> u32;
    fn bench_execute(table: *mut u64, words: usize, state: *const State, word: u64, xt: u64, xt2: u64, out: *mut Executed) -> u32;
    fn bench_run(table: *mut u64, words: usize, state: *const State, list: *const u64, list_words: usize, out: *mut Ran) -> u32;
    fn bench_judge(state: *const State, target: *const Target, list: *const u64, list_words: usize, out: *mut Judged) -> u32;
    fn bench_build(operation: *const Operation, out: *mut Built) -> u32;
    fn bench_read_operand(told: *const Told, xt: u64, xt2: u64, out: *mut Fields) -> u32;
    fn bench_write_operand(told: *const Told, fields: *const Fields, out: *mut Words) -> u32;
    // The library itself.
    fn chickadoor_read_slot(table: *const u64, words: usize, slot: usize, out: *mut Slot) -> u32;
    fn chickadoor_decode(word: u64, out: *mut Operation) -> u32;
    fn chickadoor_list(code: *const u8, code_bytes: usize, at: u64, text: *mut u8, text_bytes: usize, out: *mut Listed) -> u32;
    fn chickadoor_tail(left: usize, text: *mut u8, text_bytes: usize, out: *mut Tailed) -> u32;
}

pub static LIBRARY: Calls = Calls {
    insert: bench_insert,
    look_up: bench_look_up,
    read_slot: chickadoor_read_slot,
    execute: bench_execute,
    run: bench_run,
    judge: bench_judge,
    decode: chickadoor_decode,
    build: bench_build,
    read_operand: bench_read_operand,
    write_operand: bench_write_operand,
    list: chickadoor_list,
    tail: chickadoor_tail,
};

pub static PLAIN: Calls = Calls {
    insert: shim::insert,
    look_up: shim::look_up,
    read_slot: plain::read_slot,
    execute: shim::execute,
    run: shim::run,
    judge: shim::judge,
    decode: plain::decode,
    build: shim::build,
    read_operand: shim::read_operand,
    write_operand: shim::write_operand,
    list: plain::list,
    tail: plain::tail,
};
