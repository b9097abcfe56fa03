//! The functions of `include/chickadoor.h`, as the archive defines them.
use crate::raw;

extern "C" {
    pub fn chickadoor_insert(table: *mut u64, words: usize, entry: raw::Entry, output: u64, out: *mut raw::Inserted) -> u32;
    pub fn chickadoor_look_up(
        table: *const u64,
        words: usize,
        state: raw::State,
        regime: u64,
        asid: u16,
        address: u64,
        out: *mut raw::Found,
    ) -> u32;
    pub fn chickadoor_read_slot(table: *const u64, words: usize, slot: usize, out: *mut raw::Slot) -> u32;
    pub fn chickadoor_execute(
        table: *mut u64,
        words: usize,
        state: raw::State,
        word: u64,
        xt: u64,
        xt2: u64,
        out: *mut raw::Executed,
    ) -> u32;
    pub fn chickadoor_run(table: *mut u64, words: usize, state: raw::State, list: *const u64, list_words: usize, out: *mut raw::Ran)
        -> u32;
    pub fn chickadoor_judge(state: raw::State, target: raw::Target, list: *const u64, list_words: usize, out: *mut raw::Judged) -> u32;
    pub fn chickadoor_decode(word: u64, out: *mut raw::Operation) -> u32;
    pub fn chickadoor_build(operation: raw::Operation, out: *mut raw::Built) -> u32;
    pub fn chickadoor_read_operand(told: raw::Told, xt: u64, xt2: u64, out: *mut raw::Fields) -> u32;
    pub fn chickadoor_write_operand(told: raw::Told, fields: raw::Fields, out: *mut raw::Words) -> u32;
    pub fn chickadoor_list(code: *const u8, code_bytes: usize, at: u64, text: *mut u8, text_bytes: usize, out: *mut raw::Listed) -> u32;
    pub fn chickadoor_tail(left: usize, text: *mut u8, text_bytes: usize, out: *mut raw::Tailed) -> u32;
}
