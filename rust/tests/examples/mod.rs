//! What the examples share: the "plain" state of READINGS, words and operands put together by hand, entries, and checked calls.

mod answers;
mod arithmetic;
mod bad_values;
mod entries;
mod judging;
mod listing;
mod marked;
mod operands;
mod state;
mod words;

use crate::plain;
use crate::plain::record::{Entry, Executed, Judged, State, Target};

pub const RVAAE1IS: u64 = 0xD508_8260;
/// m1's operand: 0x40000000 to 0x40001FFF, 4K, TTL 00.
pub const M1: u64 = 0x0000_4000_0004_0000;
/// m12's operand: 0x40000000 to 0x40003FFF.
pub const M12: u64 = 0x0000_4080_0004_0000;
/// TLBIP RIPAS2LE1IS, X0 (m9, m10).
pub const M9: u64 = 0xD54C_80C0;

/// "a state is "plain" = EL1, no EL2, no EL3, TLBIRANGE only, one processor".
pub fn plain_state() -> State {
    State { el: 1, tlbirange: 1, count: 1, ..State::default() }
}

/// A plain state with EL2 present (and enabled: without EL3 the state is Non-secure), at EL1 or EL2.
pub fn with_el2(el: u8) -> State {
    State { el, el2: 1, ..plain_state() }
}

/// A plain state at EL3 with EL2 and EL3 present; NS as given.
pub fn at_el3(scr_ns: u8) -> State {
    State { el: 3, el2: 1, el3: 1, scr_ns, ..plain_state() }
}

/// m9's state: "D128 at EL1, EL2 enabled, NV".
pub fn m9_state() -> State {
    State { d128: 1, hcr_nv: 1, ..with_el2(1) }
}

/// m10's state: "the same at EL3, EL2 disabled" (Secure, no SEL2).
pub fn m10_state() -> State {
    State { d128: 1, hcr_nv: 1, ..at_el3(0) }
}

pub fn sys(op1: u64, crm: u64, op2: u64) -> u64 {
    0xD508_0000 + (op1 << 16) + (8 << 12) + (crm << 8) + (op2 << 5)
}

pub fn sysp(op1: u64, crm: u64, op2: u64) -> u64 {
    sys(op1, crm, op2) + 0x40_0000
}

/// The NXS twin of a word: CRn 9.
pub fn nxs(word: u64) -> u64 {
    word + 0x1000
}

/// TG, SCALE, NUM, TTL and the low field, by 01's bit numbers.
pub fn operand(tg: u64, scale: u64, num: u64, ttl: u64, low: u64) -> u64 {
    tg << 46 | scale << 44 | num << 39 | ttl << 37 | low
}

/// A 64-bit 4K level 3 leaf of EL1&0, Non-secure, VMID 0, ASID 0, on processor 0.
pub fn page(base: u64) -> Entry {
    Entry { security: 1, granule: 1, level: 3, leaf: 1, base, ..Entry::default() }
}

pub fn leaf(level: i64, base: u64) -> Entry {
    Entry { level, ..page(base) }
}

pub fn non_leaf(level: i64, base: u64) -> Entry {
    Entry { level, leaf: 0, ..page(base) }
}

/// A table of just these entries; every one is legal.
pub fn table_of(entries: &[Entry]) -> Vec<u64> {
    let mut table = vec![0; 3 * entries.len()];
    for (i, entry) in entries.iter().enumerate() {
        let (number, inserted) = plain::insert(&mut table, entry, i as u64 + 100);
        assert_eq!((number, inserted.slot), (0, i as u64), "{:?}", entry);
    }
    table
}

/// Which of the entries go; the call answers 0, counts them, zeroes them and leaves every other word.
pub fn gone2(state: &State, word: u64, xt: u64, xt2: u64, entries: &[Entry]) -> Vec<bool> {
    let before = table_of(entries);
    let mut after = before.clone();
    let (number, executed) = plain::execute(&mut after, state, word, xt, xt2);
    assert_eq!(number, 0);
    let gone: Vec<bool> = after.chunks(3).map(|slot| slot == [0, 0, 0]).collect();
    let dropped = gone.iter().filter(|&&g| g).count() as u64;
    assert_eq!(executed, Executed { dropped, trap: 0 });
    for (i, g) in gone.iter().enumerate() {
        assert!(*g || after[3 * i..3 * i + 3] == before[3 * i..3 * i + 3]);
    }
    gone
}

pub fn gone(state: &State, word: u64, xt: u64, entries: &[Entry]) -> Vec<bool> {
    gone2(state, word, xt, 0, entries)
}

pub fn goes(state: &State, word: u64, xt: u64, entry: Entry) -> bool {
    gone(state, word, xt, &[entry])[0]
}

pub fn goes2(state: &State, word: u64, xt: u64, xt2: u64, entry: Entry) -> bool {
    gone2(state, word, xt, xt2, &[entry])[0]
}

/// The answer and the trap's number of an execution on an empty table.
pub fn answer2(state: &State, word: u64, xt: u64, xt2: u64) -> (u32, u64) {
    let (number, executed) = plain::execute(&mut [], state, word, xt, xt2);
    assert_eq!(executed.dropped, 0);
    (number, executed.trap)
}

pub fn answer(state: &State, word: u64, xt: u64) -> u32 {
    answer2(state, word, xt, 0).0
}

/// m11's target: "0x40000000 to 0x40003FFF, all ASIDs, 64-bit 4K, all levels, the step's company".
pub fn m11_target() -> Target {
    Target { security: 1, granule: 1, processors: 1, first: 0x4000_0000, last: 0x4000_3FFF, ..Target::default() }
}

/// The witness of a target of the plain state's company: XS 1.
pub fn witness(entry: Entry) -> (u32, Judged) {
    (12, Judged { step: 0, survivor: Entry { xs: 1, ..entry } })
}

pub fn at_step(number: u32, step: u64) -> (u32, Judged) {
    (number, Judged { step, survivor: Entry::default() })
}

pub const ACCEPTED: (u32, Judged) = (0, NOTHING);
pub const NOTHING: Judged = Judged {
    step: 0,
    survivor: Entry {
        processor: 0,
        regime: 0,
        security: 0,
        vmid: 0,
        asid: 0,
        global: 0,
        stage2: 0,
        ns: 0,
        wide: 0,
        granule: 0,
        level: 0,
        leaf: 0,
        xs: 0,
        base: 0,
    },
};
