//! Execution: the access rules, reading the operand, carrying out one operation or a list of them.

use super::answer;
use super::entry::{Company, REGIME_EL10, REGIME_EL2, REGIME_EL20, REGIME_EL3, SECURE};
use super::goes::Effect;
use super::operand::{fields, is_unpredictable, last, ONE_RANGE, STAGE_2, STAGE_2_WITH_NS, TWO_RANGES, TWO_RANGES_WITH_ASID};
use super::record::{Executed, Operation, Ran, State, Told};
use super::slot::{granule_tag, read, shape_is_good, GRANULE_BITS, WORDS};
use super::state::{e2h, e2h_and_tge, el2_enabled, hcrx_live, is_good, reached, security_in, trap_flag, unit_64k, vmid_in};
use super::words::{family, leaves_only, odd_pair, operation, Family, IS, OS, RVAE1, RVALE1};

const MOST_LIST_WORDS: usize = 48;

/// An answer other than 0, with the trap's number (0 but for a trap).
pub type Refusal = (u32, u64);

pub fn execute(table: &mut [u64], state: &State, word: u64, xt: u64, xt2: u64) -> (u32, Executed) {
    if !shape_is_good(table) {
        return (answer::BAD_SHAPE, Executed::default());
    }
    if !is_good(state) {
        return (answer::BAD_STATE, Executed::default());
    }
    match effect(state, word, xt, xt2) {
        Ok(effect) => (answer::DONE, Executed { dropped: carry_out(table, &effect), trap: 0 }),
        Err((number, trap)) => (number, Executed { dropped: 0, trap }),
    }
}

pub fn run(table: &mut [u64], state: &State, list: &[u64]) -> (u32, Ran) {
    if !shape_is_good(table) || !list_shape_is_good(list) {
        return (answer::BAD_SHAPE, Ran::default());
    }
    if !is_good(state) {
        return (answer::BAD_STATE, Ran::default());
    }
    // What a step answers hangs on the state alone, so all are read before the table is touched.
    match effects(state, list) {
        Ok(effects) => {
            let dropped = effects.iter().map(|effect| carry_out(table, effect)).sum();
            (answer::DONE, Ran { dropped, step: 0 })
        }
        Err(step) => (answer::STEP_REFUSED, Ran { dropped: 0, step }),
    }
}

/// "A list has 0 to 16 steps, each three 64-bit words".
pub fn list_shape_is_good(list: &[u64]) -> bool {
    list.len() % 3 == 0 && list.len() <= MOST_LIST_WORDS
}

/// What every step of a list does, or the first step that does not answer 0.
pub fn effects(state: &State, list: &[u64]) -> Result<Vec<Effect>, u64> {
    let steps = list.chunks_exact(3).enumerate();
    steps.map(|(place, step)| effect(state, step[0], step[1], step[2]).map_err(|_| place as u64)).collect()
}

/// Zeroes the slots that go and counts them; every other word stays.
fn carry_out(table: &mut [u64], effect: &Effect) -> u64 {
    let wanted = granule_tag(&effect.company, effect.granule);
    let mut dropped = 0;
    for slot in table.chunks_exact_mut(WORDS) {
        if slot[1] & GRANULE_BITS == wanted && read(slot[0], slot[1]).map_or(false, |e| effect.drops(&e)) {
            slot.fill(0);
            dropped += 1;
        }
    }
    dropped
}

/// What a word does in a good state: "1, 3 to 5 by the access rules, 6, 7".
fn effect(state: &State, word: u64, xt: u64, xt2: u64) -> Result<Effect, Refusal> {
    let op = operation(word).ok_or((answer::NOT_AN_OPERATION, 0))?;
    let access = access(state, &op)?;
    let (xt, xt2) = passed(&op, xt, xt2);
    let told = told(state, &op, &access);
    let fields = fields(&told, xt, xt2).ok_or((answer::NO_GRANULE, 0))?;
    if is_unpredictable(op.tlbip, &fields) {
        return Err((answer::UNPREDICTABLE, 0));
    }
    let (regime, stage2) = (access.regime, access.stage2);
    Ok(Effect {
        company: Company { regime, security: security_in(state, regime), vmid: vmid_in(state, regime), stage2, ns: fields.ns },
        reached: reached(state, op.share),
        granule: fields.tg,
        ttl: fields.ttl,
        first: fields.base,
        last: last(&fields),
        wide: op.tlbip,
        d128: state.d128 == 1,
        leaves_only: leaves_only(op.name),
        asid: if told.form == TWO_RANGES_WITH_ASID { Some(fields.asid) } else { None },
        keeps_xs: access.keeps_xs,
    })
}

/// "Rt 31 means a zero operand, whatever was passed; under SYSP with Rt 30, Xt2 counts as zero."
fn passed(op: &Operation, xt: u64, xt2: u64) -> (u64, u64) {
    match op.rt {
        31 => (0, 0),
        30 => (xt, 0),
        _ => (xt, xt2),
    }
}

/// What an operation that may go ahead acts on.
struct Access {
    regime: u64,
    stage2: u64,
    keeps_xs: bool,
}

fn told(state: &State, op: &Operation, access: &Access) -> Told {
    let form = form(state, op, access);
    let unit64k = u64::from(unit_64k(state, access.regime, access.stage2));
    Told { tlbip: op.tlbip, form, lpa2: u64::from(state.lpa2), unit64k }
}

/// "ASID 63:48 (RVAE1, RVALE1, and E2 names under EL2&0); for RIPAS2 bit 63 is NS", which counts in Secure state only.
fn form(state: &State, op: &Operation, access: &Access) -> u64 {
    if access.stage2 == 1 {
        return if security_in(state, access.regime) == SECURE { STAGE_2_WITH_NS } else { STAGE_2 };
    }
    if access.regime == REGIME_EL2 || access.regime == REGIME_EL3 {
        return ONE_RANGE;
    }
    let by_asid = op.name == RVAE1 || op.name == RVALE1 || family(op.name) == Family::E2;
    if by_asid {
        TWO_RANGES_WITH_ASID
    } else {
        TWO_RANGES
    }
}

/// The access rules, "first that holds, absent features, EL0 and odd Rt before the rest".
fn access(state: &State, op: &Operation) -> Result<Access, Refusal> {
    if feature_is_absent(state, op) || state.el == 0 || odd_pair(op) {
        return Err((answer::UNDEFINED, 0));
    }
    match family(op.name) {
        Family::E1 => access_e1(state, op),
        Family::E2 => access_e2(state, op),
        Family::E3 => access_e3(state, op),
        Family::Ripas2 => access_ripas2(state, op),
    }
}

/// "TLBI wants TLBIRANGE, and TLBIOS if OS; TLBIP wants D128; NXS wants XS."
fn feature_is_absent(state: &State, op: &Operation) -> bool {
    let narrow = op.tlbip == 0 && (state.tlbirange == 0 || (op.share == OS && state.tlbios == 0));
    let wide = op.tlbip == 1 && state.d128 == 0;
    narrow || wide || (op.nxs == 1 && state.xs == 0)
}

fn trap(op: &Operation) -> Refusal {
    (answer::TRAPPED, if op.tlbip == 1 { 0x14 } else { 0x18 })
}

fn access_e1(state: &State, op: &Operation) -> Result<Access, Refusal> {
    if state.el == 1 {
        if el2_enabled(state) && e1_is_trapped(state, op) {
            return Err(trap(op));
        }
        // "With XS, live HCRX and FnXS 1, plain acts as NXS."
        let acts_as_nxs = state.xs == 1 && hcrx_live(state) && state.hcrx_fnxs == 1;
        return Ok(Access { regime: REGIME_EL10, stage2: 0, keeps_xs: op.nxs == 1 || acts_as_nxs });
    }
    let regime = if e2h_and_tge(state) { REGIME_EL20 } else { REGIME_EL10 };
    Ok(Access { regime, stage2: 0, keeps_xs: op.nxs == 1 })
}

/// "by TTLB; by TTLBIS (IS) or TTLBOS (OS); by FGT".
fn e1_is_trapped(state: &State, op: &Operation) -> bool {
    state.hcr_ttlb == 1
        || (op.share == IS && state.hcr_ttlbis == 1)
        || (op.share == OS && state.hcr_ttlbos == 1)
        || fine_grained_trap(state, op)
}

/// "FGT with EL3 absent or FGTEn 1 and its flag, for NXS also HCX and (HCRX not live or FGTnXS 0)".
fn fine_grained_trap(state: &State, op: &Operation) -> bool {
    let on = state.fgt == 1 && (state.el3 == 0 || state.scr_fgten == 1) && trap_flag(state, op.name, op.share);
    on && (op.nxs == 0 || (state.hcx == 1 && (!hcrx_live(state) || state.hcrx_fgtnxs == 0)))
}

/// "E2 names and RIPAS2 at EL1: trapped if EL2 enabled and NV, else 3."
fn refusal_at_el1(state: &State, op: &Operation) -> Refusal {
    if el2_enabled(state) && state.hcr_nv == 1 {
        trap(op)
    } else {
        (answer::UNDEFINED, 0)
    }
}

/// "At EL3 with EL2 disabled: E2 names 3"; "E2 names use EL2&0 if E2H is 1, else EL2."
fn access_e2(state: &State, op: &Operation) -> Result<Access, Refusal> {
    if state.el == 1 {
        return Err(refusal_at_el1(state, op));
    }
    if !el2_enabled(state) {
        return Err((answer::UNDEFINED, 0));
    }
    let regime = if e2h(state) { REGIME_EL20 } else { REGIME_EL2 };
    Ok(Access { regime, stage2: 0, keeps_xs: op.nxs == 1 })
}

/// "At EL3 with EL2 disabled: ... RIPAS2 5 (003)."
fn access_ripas2(state: &State, op: &Operation) -> Result<Access, Refusal> {
    if state.el == 1 {
        return Err(refusal_at_el1(state, op));
    }
    if !el2_enabled(state) {
        return Err((answer::NO_EFFECT, 0));
    }
    Ok(Access { regime: REGIME_EL10, stage2: 1, keeps_xs: op.nxs == 1 })
}

/// "E3 names below EL3: 3."
fn access_e3(state: &State, op: &Operation) -> Result<Access, Refusal> {
    if state.el < 3 {
        return Err((answer::UNDEFINED, 0));
    }
    Ok(Access { regime: REGIME_EL3, stage2: 0, keeps_xs: op.nxs == 1 })
}
