//! The access rules: what an operation acts on in a state, or why it does not run.

use super::answer;
use super::state::{el2_enabled, hcrx_live, trap_flag, EL10, EL2, EL20, EL3};
use super::words::{Name, Parts, Share};
use crate::records::State;

/// An answer other than 0, and the exception class of a trap.
pub type Refusal = (u32, u64);

pub struct Scope {
    pub regime: u64,
    pub stage2: bool,
    pub asid: bool,
    pub nxs: bool,
}

pub fn access(s: &State, op: &Parts) -> Result<Scope, Refusal> {
    if is_absent(s, op) || s.el == 0 || op.is_odd_pair() {
        return Err((answer::UNDEFINED, 0));
    }
    match op.name {
        Name::Rvae1 | Name::Rvale1 => e1(s, op, true),
        Name::Rvaae1 | Name::Rvaale1 => e1(s, op, false),
        Name::Rvae2 | Name::Rvale2 => e2(s, op),
        Name::Rvae3 | Name::Rvale3 => e3(s, op),
        Name::Ripas2e1 | Name::Ripas2le1 => stage2(s, op),
    }
}

fn is_absent(s: &State, op: &Parts) -> bool {
    let f = &s.features;
    let kind = if op.tlbip { f.d128 == 0 } else { f.tlbirange == 0 || (op.share == Share::Outer && f.tlbios == 0) };
    kind || (op.nxs && f.xs == 0)
}

fn trap(op: &Parts) -> Refusal {
    (answer::TRAPPED, if op.tlbip { 0x14 } else { 0x18 })
}

fn e1(s: &State, op: &Parts, asid: bool) -> Result<Scope, Refusal> {
    if s.el == 1 {
        if el2_enabled(s) && is_trapped(s, op) {
            return Err(trap(op));
        }
        let nxs = op.nxs || (s.features.xs == 1 && s.hcrx.fnxs == 1 && hcrx_live(s));
        return Ok(Scope { regime: EL10, stage2: false, asid, nxs });
    }
    let host = s.hcr.e2h == 1 && s.hcr.tge == 1 && el2_enabled(s);
    Ok(Scope { regime: if host { EL20 } else { EL10 }, stage2: false, asid, nxs: op.nxs })
}

fn is_trapped(s: &State, op: &Parts) -> bool {
    s.hcr.ttlb == 1
        || (op.share == Share::Inner && s.hcr.ttlbis == 1)
        || (op.share == Share::Outer && s.hcr.ttlbos == 1)
        || is_trapped_finely(s, op)
}

fn is_trapped_finely(s: &State, op: &Parts) -> bool {
    s.features.fgt == 1
        && (s.present.el3 == 0 || s.scr.fgten == 1)
        && trap_flag(s, op.name, op.share)
        && (!op.nxs || (s.features.hcx == 1 && (!hcrx_live(s) || s.hcrx.fgtnxs == 0)))
}

fn at_el1(s: &State, op: &Parts) -> Refusal {
    if s.hcr.nv == 1 && el2_enabled(s) {
        trap(op)
    } else {
        (answer::UNDEFINED, 0)
    }
}

fn e2(s: &State, op: &Parts) -> Result<Scope, Refusal> {
    if s.el == 1 {
        return Err(at_el1(s, op));
    }
    if !el2_enabled(s) {
        return Err((answer::UNDEFINED, 0));
    }
    let host = s.hcr.e2h == 1;
    Ok(Scope { regime: if host { EL20 } else { EL2 }, stage2: false, asid: host, nxs: op.nxs })
}

fn stage2(s: &State, op: &Parts) -> Result<Scope, Refusal> {
    if s.el == 1 {
        return Err(at_el1(s, op));
    }
    if !el2_enabled(s) {
        return Err((answer::NO_EFFECT, 0));
    }
    Ok(Scope { regime: EL10, stage2: true, asid: false, nxs: op.nxs })
}

fn e3(s: &State, op: &Parts) -> Result<Scope, Refusal> {
    if s.el < 3 {
        return Err((answer::UNDEFINED, 0));
    }
    Ok(Scope { regime: EL3, stage2: false, asid: false, nxs: op.nxs })
}
