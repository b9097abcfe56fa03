//! The calls on a table: execute, run, look up, insert, and reading a slot.

use super::answer;
use super::slot::{
    asid, company_tag, entry_of, exponent_at, has_two_ranges, is_company, is_entry, is_global, is_leaf, is_legal, processor, tag_of,
    COMPANY_BITS,
};
use super::state::{is_bad, security_in, vmid_in, EL3};
use super::work::{resolve, Work};
use crate::records::{Company, Entry, Executed, Found, Inserted, Ran, Slot, State};

pub fn is_table(words: usize) -> bool {
    words <= 6144 && words % 3 == 0
}

pub fn is_list(words: usize) -> bool {
    words <= 48 && words % 3 == 0
}

pub fn execute(table: &mut [u64], s: &State, word: u64, xt: u64, xt2: u64, out: &mut Executed) -> u32 {
    *out = Executed::default();
    if !is_table(table.len()) {
        return answer::BAD_SHAPE;
    }
    if is_bad(s) {
        return answer::BAD_STATE;
    }
    match resolve(s, word, xt, xt2) {
        Ok(work) => {
            out.dropped = drop_all(table, &work);
            answer::DONE
        }
        Err((number, trap)) => {
            out.trap = trap;
            number
        }
    }
}

fn drop_all(table: &mut [u64], work: &Work) -> u64 {
    let mut dropped = 0;
    for slot in table.chunks_exact_mut(3) {
        if work.drops(slot[0], slot[1]) {
            slot.fill(0);
            dropped += 1;
        }
    }
    dropped
}

/// The works of a list's steps and how many there are, or the first step that is refused.
pub fn works(s: &State, list: &[u64]) -> Result<([Work; 16], usize), u64> {
    let mut works = [Work::default(); 16];
    for (k, step) in list.chunks_exact(3).enumerate() {
        works[k] = resolve(s, step[0], step[1], step[2]).map_err(|_| k as u64)?;
    }
    Ok((works, list.len() / 3))
}

pub fn run(table: &mut [u64], s: &State, list: &[u64], out: &mut Ran) -> u32 {
    *out = Ran::default();
    if !is_table(table.len()) || !is_list(list.len()) {
        return answer::BAD_SHAPE;
    }
    if is_bad(s) {
        return answer::BAD_STATE;
    }
    match works(s, list) {
        Ok((works, n)) => {
            out.dropped = works[..n].iter().map(|work| drop_all(table, work)).sum();
            answer::DONE
        }
        Err(step) => {
            out.step = step;
            answer::STEP_REFUSED
        }
    }
}

pub fn look_up(table: &[u64], s: &State, regime: u64, own_asid: u16, address: u64, out: &mut Found) -> u32 {
    *out = Found::default();
    if !is_table(table.len()) {
        return answer::BAD_SHAPE;
    }
    if is_bad(s) {
        return answer::BAD_STATE;
    }
    if regime > EL3 {
        return answer::BREAKS_RULE;
    }
    let company = Company { regime, security: security_in(s, regime), vmid: vmid_in(s, regime), stage2: 0, ns: 0 };
    let key = company_tag(&company);
    let any_asid = !has_two_ranges(key);
    let (own, own_asid) = (u64::from(s.board.own), u64::from(own_asid));
    let translates = |base: u64, tag: u64| {
        tag & COMPANY_BITS == key
            && is_leaf(tag)
            && processor(tag) == own
            && (base ^ address) >> exponent_at(tag) == 0
            && (any_asid || asid(tag) == own_asid || is_global(tag))
            && is_entry(base, tag)
    };
    match table.chunks_exact(3).position(|slot| translates(slot[0], slot[1])) {
        Some(slot) => {
            *out = Found { slot: slot as u64, output: table[3 * slot + 2], examined: slot as u64 + 1 };
            answer::DONE
        }
        None => {
            out.examined = (table.len() / 3) as u64;
            answer::NOT_FOUND
        }
    }
}

pub fn insert(table: &mut [u64], e: &Entry, output: u64, out: &mut Inserted) -> u32 {
    *out = Inserted::default();
    if !is_table(table.len()) {
        return answer::BAD_SHAPE;
    }
    if !fits(e) || !is_legal(e.base, tag_of(e)) {
        return answer::BREAKS_RULE;
    }
    match table.chunks_exact_mut(3).enumerate().find(|(_, slot)| !is_entry(slot[0], slot[1])) {
        Some((k, slot)) => {
            slot.copy_from_slice(&[e.base, tag_of(e), output]);
            out.slot = k as u64;
            answer::DONE
        }
        None => answer::FULL,
    }
}

/// Every field has room in its place of a tag.
fn fits(e: &Entry) -> bool {
    company_fits(&e.company)
        && e.processor < 8
        && e.asid < 0x1_0000
        && (e.global | e.wide | e.leaf | e.xs) < 2
        && e.granule < 4
        && (-1..=3).contains(&e.level)
}

fn company_fits(c: &Company) -> bool {
    c.regime < 4 && c.security < 4 && c.vmid < 0x1_0000 && (c.stage2 | c.ns) < 2
}

pub fn is_legal_company(c: &Company) -> bool {
    company_fits(c) && is_company(company_tag(c))
}

pub fn read_slot(table: &[u64], slot: usize, out: &mut Slot) -> u32 {
    *out = Slot::default();
    if !is_table(table.len()) {
        return answer::BAD_SHAPE;
    }
    match table.chunks_exact(3).nth(slot) {
        Some(words) if is_entry(words[0], words[1]) => {
            *out = Slot { entry: entry_of(words[0], words[1]), output: words[2] };
            answer::DONE
        }
        Some(_) => answer::NOT_FOUND,
        None => answer::BREAKS_RULE,
    }
}
