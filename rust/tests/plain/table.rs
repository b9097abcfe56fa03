//! The calls on a table that carry out no operation: insert, look up, read a slot.

use super::answer;
use super::entry::{is_legal, last_address, Company, REGIME_EL3};
use super::record::{Entry, Found, Inserted, Slot, State};
use super::slot::{company_tag, read, shape_is_good, tag, COMPANY_BITS, WORDS};
use super::state::{is_good, security_in, vmid_in};

pub fn insert(table: &mut [u64], entry: &Entry, output: u64) -> (u32, Inserted) {
    if !shape_is_good(table) {
        return (answer::BAD_SHAPE, Inserted::default());
    }
    if !is_legal(entry) {
        return (answer::BREAKS_A_RULE, Inserted::default());
    }
    // "Insert takes and returns the lowest slot that reads as empty."
    match table.chunks_exact(WORDS).position(|slot| read(slot[0], slot[1]).is_none()) {
        Some(slot) => {
            table[WORDS * slot] = entry.base;
            table[WORDS * slot + 1] = tag(entry);
            table[WORDS * slot + 2] = output;
            (answer::DONE, Inserted { slot: slot as u64 })
        }
        None => (answer::NO_EMPTY_SLOT, Inserted::default()),
    }
}

pub fn look_up(table: &[u64], state: &State, regime: u64, asid: u64, address: u64) -> (u32, Found) {
    if !shape_is_good(table) {
        return (answer::BAD_SHAPE, Found::default());
    }
    if !is_good(state) {
        return (answer::BAD_STATE, Found::default());
    }
    if regime > REGIME_EL3 || asid > 0xFFFF {
        return (answer::BREAKS_A_RULE, Found::default());
    }
    match find(table, state, regime, asid, address) {
        Some(slot) => {
            let examined = slot as u64 + 1;
            (answer::DONE, Found { slot: slot as u64, output: table[WORDS * slot + 2], examined })
        }
        None => (answer::NOT_FOUND, Found { slot: 0, output: 0, examined: (table.len() / WORDS) as u64 }),
    }
}

fn find(table: &[u64], state: &State, regime: u64, asid: u64, address: u64) -> Option<usize> {
    let company = Company { regime, security: security_in(state, regime), vmid: vmid_in(state, regime), stage2: 0, ns: 0 };
    let wanted = company_tag(&company);
    let own = u64::from(state.own);
    let translates = |e: &Entry| {
        let asid_agrees = e.asid == asid || e.global == 1 || !company.has_two_ranges();
        e.leaf == 1 && e.processor == own && e.base <= address && address <= last_address(e) && asid_agrees
    };
    table.chunks_exact(WORDS).position(|slot| slot[1] & COMPANY_BITS == wanted && read(slot[0], slot[1]).map_or(false, |e| translates(&e)))
}

pub fn read_slot(table: &[u64], slot: u64) -> (u32, Slot) {
    if !shape_is_good(table) {
        return (answer::BAD_SHAPE, Slot::default());
    }
    if slot >= (table.len() / WORDS) as u64 {
        return (answer::BREAKS_A_RULE, Slot::default());
    }
    let at = WORDS * slot as usize;
    match read(table[at], table[at + 1]) {
        Some(entry) => (answer::DONE, Slot { entry, output: table[at + 2] }),
        None => (answer::NOT_FOUND, Slot::default()),
    }
}
