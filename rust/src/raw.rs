//! The records of `include/chickadoor.h`, field by field, and its functions: plain integers, so that every bit pattern is a value. The header says what each
//! means.
#![allow(missing_docs)]

/// Which of the upper exception levels there are.
#[repr(C)]
#[derive(Clone, Copy, Debug, Default, PartialEq, Eq)]
pub struct Present {
    pub el2: u8,
    pub el3: u8,
}

/// FEAT_*.
#[repr(C)]
#[derive(Clone, Copy, Debug, Default, PartialEq, Eq)]
pub struct Features {
    pub tlbirange: u8,
    pub tlbios: u8,
    pub d128: u8,
    pub xs: u8,
    pub lpa2: u8,
    pub rme: u8,
    pub sel2: u8,
    pub fgt: u8,
    pub hcx: u8,
}

/// SCR_EL3.
#[repr(C)]
#[derive(Clone, Copy, Debug, Default, PartialEq, Eq)]
pub struct Scr {
    pub ns: u8,
    pub nse: u8,
    pub eel2: u8,
    pub fgten: u8,
    pub hxen: u8,
}

/// HCR_EL2.
#[repr(C)]
#[derive(Clone, Copy, Debug, Default, PartialEq, Eq)]
pub struct Hcr {
    pub e2h: u8,
    pub tge: u8,
    pub ttlb: u8,
    pub ttlbis: u8,
    pub ttlbos: u8,
    pub nv: u8,
}

/// HCRX_EL2.
#[repr(C)]
#[derive(Clone, Copy, Debug, Default, PartialEq, Eq)]
pub struct Hcrx {
    pub fnxs: u8,
    pub fgtnxs: u8,
}

/// One flag for each shareability.
#[repr(C)]
#[derive(Clone, Copy, Debug, Default, PartialEq, Eq)]
pub struct Flags {
    pub local: u8,
    pub inner: u8,
    pub outer: u8,
}

/// The fine-grained traps of HFGITR_EL2.
#[repr(C)]
#[derive(Clone, Copy, Debug, Default, PartialEq, Eq)]
pub struct Traps {
    pub rvae1: Flags,
    pub rvaae1: Flags,
    pub rvale1: Flags,
    pub rvaale1: Flags,
}

/// DS of TCR_EL1, TCR_EL2, TCR_EL3 and VTCR_EL2.
#[repr(C)]
#[derive(Clone, Copy, Debug, Default, PartialEq, Eq)]
pub struct Ds {
    pub el1: u8,
    pub el2: u8,
    pub el3: u8,
    pub stage2: u8,
}

/// The processors of a board.
#[repr(C)]
#[derive(Clone, Copy, Debug, Default, PartialEq, Eq)]
pub struct Board {
    pub own: u8,
    pub count: u8,
    pub inner: [u8; 8],
    pub outer: [u8; 8],
}

/// The processor state. Flags are 0 or 1; any other value makes the state bad (answer 2), like an exception level over 3.
#[repr(C)]
#[derive(Clone, Copy, Debug, Default, PartialEq, Eq)]
pub struct State {
    pub present: Present,
    pub features: Features,
    pub scr: Scr,
    pub hcr: Hcr,
    pub hcrx: Hcrx,
    pub traps: Traps,
    pub ds: Ds,
    pub el: u8,
    pub vmid: u16,
    pub board: Board,
}

/// Whose an entry is: regime 0 EL1&0, 1 EL2&0, 2 EL2, 3 EL3; security 0 Secure, 1 Non-secure, 2 Realm, 3 Root; `stage2` and `ns` are 0 or 1.
#[repr(C)]
#[derive(Clone, Copy, Debug, Default, PartialEq, Eq)]
pub struct Company {
    pub regime: u64,
    pub security: u64,
    pub vmid: u64,
    pub stage2: u64,
    pub ns: u64,
}

/// An entry: granule 1 4K, 2 16K, 3 64K; `global`, `wide` (128-bit), `leaf` and `xs` are 0 or 1; level -1 to 3. Any other value makes it illegal
/// (answer 8).
#[repr(C)]
#[derive(Clone, Copy, Debug, Default, PartialEq, Eq)]
pub struct Entry {
    pub processor: u64,
    pub company: Company,
    pub asid: u64,
    pub global: u64,
    pub wide: u64,
    pub granule: u64,
    pub level: i64,
    pub leaf: u64,
    pub xs: u64,
    pub base: u64,
}

/// A target: `one` is 1 where only the ASID `asid` is asked for; `leaves` 1 where only leaves are; `processors` has a bit for each processor.
#[repr(C)]
#[derive(Clone, Copy, Debug, Default, PartialEq, Eq)]
pub struct Target {
    pub company: Company,
    pub wide: u64,
    pub granule: u64,
    pub one: u64,
    pub asid: u64,
    pub leaves: u64,
    pub processors: u64,
    pub first: u64,
    pub last: u64,
}

/// An operation: name 0 RVAE1, 1 RVAAE1, 2 RVALE1, 3 RVAALE1, 4 RVAE2, 5 RVALE2, 6 RVAE3, 7 RVALE3, 8 RIPAS2E1, 9 RIPAS2LE1; share 0 local,
/// 1 IS, 2 OS; `nxs` and `tlbip` 0 or 1; Rt 0 to 31.
#[repr(C)]
#[derive(Clone, Copy, Debug, Default, PartialEq, Eq)]
pub struct Operation {
    pub name: u64,
    pub share: u64,
    pub nxs: u64,
    pub tlbip: u64,
    pub rt: u64,
}

/// What the reader and the writer of an operand are told: form 0 two ranges with ASID, 1 two ranges without, 2 one range, 3 stage 2 with NS
/// (Secure), 4 stage 2 without; the others 0 or 1.
#[repr(C)]
#[derive(Clone, Copy, Debug, Default, PartialEq, Eq)]
pub struct Told {
    pub tlbip: u64,
    pub form: u64,
    pub lpa2: u64,
    pub unit64k: u64,
}

/// An operand by its fields; the base is an address.
#[repr(C)]
#[derive(Clone, Copy, Debug, Default, PartialEq, Eq)]
pub struct Fields {
    pub asid: u64,
    pub ns: u64,
    pub tg: u64,
    pub scale: u64,
    pub num: u64,
    pub ttl: u64,
    pub base: u64,
}

#[repr(C)]
#[derive(Clone, Copy, Debug, Default, PartialEq, Eq)]
pub struct Words {
    pub xt: u64,
    pub xt2: u64,
}

#[repr(C)]
#[derive(Clone, Copy, Debug, Default, PartialEq, Eq)]
pub struct Inserted {
    pub slot: u64,
}

#[repr(C)]
#[derive(Clone, Copy, Debug, Default, PartialEq, Eq)]
pub struct Found {
    pub slot: u64,
    pub output: u64,
    pub examined: u64,
}

#[repr(C)]
#[derive(Clone, Copy, Debug, Default, PartialEq, Eq)]
pub struct Executed {
    pub dropped: u64,
    pub trap: u64,
}

#[repr(C)]
#[derive(Clone, Copy, Debug, Default, PartialEq, Eq)]
pub struct Ran {
    pub dropped: u64,
    pub step: u64,
}

#[repr(C)]
#[derive(Clone, Copy, Debug, Default, PartialEq, Eq)]
pub struct Judged {
    pub survivor: Entry,
    pub step: u64,
}

#[repr(C)]
#[derive(Clone, Copy, Debug, Default, PartialEq, Eq)]
pub struct Slot {
    pub entry: Entry,
    pub output: u64,
}

#[repr(C)]
#[derive(Clone, Copy, Debug, Default, PartialEq, Eq)]
pub struct Listed {
    pub used: u64,
    pub written: u64,
}

#[repr(C)]
#[derive(Clone, Copy, Debug, Default, PartialEq, Eq)]
pub struct Built {
    pub word: u64,
}

#[repr(C)]
#[derive(Clone, Copy, Debug, Default, PartialEq, Eq)]
pub struct Tailed {
    pub written: u64,
}

/// The functions of the header with slices for pointers: the answer number, and the record of further values.
pub mod call {
    use super::*;
    use crate::ffi;

    pub fn insert(table: &mut [u64], entry: Entry, output: u64) -> (u32, Inserted) {
        let mut out = Inserted::default();
        // SAFETY: the pointers and counts are those of live slices and records, which do not overlap; so in each call below.
        let answer = unsafe { ffi::chickadoor_insert(table.as_mut_ptr(), table.len(), entry, output, &mut out) };
        (answer, out)
    }

    pub fn look_up(table: &[u64], state: State, regime: u64, asid: u16, address: u64) -> (u32, Found) {
        let mut out = Found::default();
        let answer = unsafe { ffi::chickadoor_look_up(table.as_ptr(), table.len(), state, regime, asid, address, &mut out) };
        (answer, out)
    }

    pub fn read_slot(table: &[u64], slot: usize) -> (u32, Slot) {
        let mut out = Slot::default();
        let answer = unsafe { ffi::chickadoor_read_slot(table.as_ptr(), table.len(), slot, &mut out) };
        (answer, out)
    }

    pub fn execute(table: &mut [u64], state: State, word: u64, xt: u64, xt2: u64) -> (u32, Executed) {
        let mut out = Executed::default();
        let answer = unsafe { ffi::chickadoor_execute(table.as_mut_ptr(), table.len(), state, word, xt, xt2, &mut out) };
        (answer, out)
    }

    pub fn run(table: &mut [u64], state: State, list: &[u64]) -> (u32, Ran) {
        let mut out = Ran::default();
        let answer = unsafe { ffi::chickadoor_run(table.as_mut_ptr(), table.len(), state, list.as_ptr(), list.len(), &mut out) };
        (answer, out)
    }

    pub fn judge(state: State, target: Target, list: &[u64]) -> (u32, Judged) {
        let mut out = Judged::default();
        let answer = unsafe { ffi::chickadoor_judge(state, target, list.as_ptr(), list.len(), &mut out) };
        (answer, out)
    }

    pub fn decode(word: u64) -> (u32, Operation) {
        let mut out = Operation::default();
        let answer = unsafe { ffi::chickadoor_decode(word, &mut out) };
        (answer, out)
    }

    pub fn build(operation: Operation) -> (u32, Built) {
        let mut out = Built::default();
        let answer = unsafe { ffi::chickadoor_build(operation, &mut out) };
        (answer, out)
    }

    pub fn read_operand(told: Told, xt: u64, xt2: u64) -> (u32, Fields) {
        let mut out = Fields::default();
        let answer = unsafe { ffi::chickadoor_read_operand(told, xt, xt2, &mut out) };
        (answer, out)
    }

    pub fn write_operand(told: Told, fields: Fields) -> (u32, Words) {
        let mut out = Words::default();
        let answer = unsafe { ffi::chickadoor_write_operand(told, fields, &mut out) };
        (answer, out)
    }

    pub fn list(code: &[u8], at: u64, text: &mut [u8]) -> (u32, Listed) {
        let mut out = Listed::default();
        let answer = unsafe { ffi::chickadoor_list(code.as_ptr(), code.len(), at, text.as_mut_ptr(), text.len(), &mut out) };
        (answer, out)
    }

    pub fn tail(left: usize, text: &mut [u8]) -> (u32, Tailed) {
        let mut out = Tailed::default();
        let answer = unsafe { ffi::chickadoor_tail(left, text.as_mut_ptr(), text.len(), &mut out) };
        (answer, out)
    }
}
