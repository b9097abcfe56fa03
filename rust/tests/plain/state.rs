//! The processor state: whether it is good, and what it says about EL2, security, VMID, HCRX, the base's unit and the reach.

use super::entry::{NON_SECURE, REALM, REGIME_EL10, REGIME_EL2, REGIME_EL20, ROOT, SECURE};
use super::record::State;
use super::words::{IS, LOCAL, RVAAE1, RVAE1, RVALE1};

pub fn is_good(s: &State) -> bool {
    flags(s).iter().all(|&flag| flag <= 1) && level_fits(s) && security_fits(s) && processors_fit(s)
}

/// Everything in the state that is a flag; a byte that is not 0 or 1 is no value of a flag.
fn flags(s: &State) -> [u8; 40] {
    [
        s.el2,
        s.el3,
        s.tlbirange,
        s.tlbios,
        s.d128,
        s.xs,
        s.lpa2,
        s.rme,
        s.sel2,
        s.fgt,
        s.hcx,
        s.scr_ns,
        s.scr_nse,
        s.scr_eel2,
        s.scr_fgten,
        s.scr_hxen,
        s.hcr_e2h,
        s.hcr_tge,
        s.hcr_ttlb,
        s.hcr_ttlbis,
        s.hcr_ttlbos,
        s.hcr_nv,
        s.hcrx_fnxs,
        s.hcrx_fgtnxs,
        s.trap_rvae1,
        s.trap_rvae1is,
        s.trap_rvae1os,
        s.trap_rvaae1,
        s.trap_rvaae1is,
        s.trap_rvaae1os,
        s.trap_rvale1,
        s.trap_rvale1is,
        s.trap_rvale1os,
        s.trap_rvaale1,
        s.trap_rvaale1is,
        s.trap_rvaale1os,
        s.ds_el1,
        s.ds_el2,
        s.ds_el3,
        s.ds_stage2,
    ]
}

/// "Bad: EL over 3; at EL2 with it absent or disabled; at EL3 with it absent".
fn level_fits(s: &State) -> bool {
    match s.el {
        0 | 1 => true,
        2 => el2_enabled(s),
        3 => s.el3 == 1,
        _ => false,
    }
}

/// "RME without EL3; RME with {NSE, NS} = {1, 0}".
fn security_fits(s: &State) -> bool {
    s.rme == 0 || (s.el3 == 1 && !(s.scr_nse == 1 && s.scr_ns == 0))
}

/// "count not 1 to 8; own number not below it; two processors in one inner and different outer domains".
fn processors_fit(s: &State) -> bool {
    if !(1..=8).contains(&s.count) || s.own >= s.count {
        return false;
    }
    let count = usize::from(s.count);
    (0..count).all(|i| (0..i).all(|j| s.inner[i] != s.inner[j] || s.outer[i] == s.outer[j]))
}

/// "Without EL3 the state is Non-secure. Otherwise {NSE, NS} (RME) or NS gives it."
fn security(s: &State) -> u64 {
    match (s.el3, s.rme, s.scr_nse, s.scr_ns) {
        (0, _, _, _) => NON_SECURE,
        (_, 1, 1, _) => REALM,
        (_, _, _, 1) => NON_SECURE,
        _ => SECURE,
    }
}

/// The security state that an operation or a lookup has in this regime: "EL3's own is Root with RME, else Secure".
pub fn security_in(s: &State, regime: u64) -> u64 {
    match regime {
        REGIME_EL10 | REGIME_EL20 | REGIME_EL2 => security(s),
        _ if s.rme == 1 => ROOT,
        _ => SECURE,
    }
}

/// "EL2 is enabled when present and either the state isn't Secure or SEL2 and EEL2 are both 1."
pub fn el2_enabled(s: &State) -> bool {
    s.el2 == 1 && (security(s) != SECURE || (s.sel2 == 1 && s.scr_eel2 == 1))
}

/// "The VMID used is 0 while EL2 is disabled", and the regimes other than EL1&0 have none.
pub fn vmid_in(s: &State, regime: u64) -> u64 {
    if regime == REGIME_EL10 && el2_enabled(s) {
        u64::from(s.vmid)
    } else {
        0
    }
}

/// "E2H and TGE count as 0 while EL2 is disabled".
pub fn e2h(s: &State) -> bool {
    el2_enabled(s) && s.hcr_e2h == 1
}

pub fn e2h_and_tge(s: &State) -> bool {
    e2h(s) && s.hcr_tge == 1
}

/// "HCRX is live when HCX holds, EL3 is absent or HXEn is 1, and EL2 is enabled."
pub fn hcrx_live(s: &State) -> bool {
    s.hcx == 1 && (s.el3 == 0 || s.scr_hxen == 1) && el2_enabled(s)
}

/// "in units of 64 KiB if LPA2 and the regime's DS hold"; the regime is the one acted on, not the name's.
pub fn unit_64k(s: &State, regime: u64, stage2: u64) -> bool {
    let ds = match (stage2, regime) {
        (1, _) => s.ds_stage2,
        (_, REGIME_EL10) => s.ds_el1,
        (_, REGIME_EL20) | (_, REGIME_EL2) => s.ds_el2,
        _ => s.ds_el3,
    };
    s.lpa2 == 1 && ds == 1
}

/// The processors that an operation reaches, one bit each, only those below the count.
pub fn reached(s: &State, share: u64) -> u64 {
    let own = usize::from(s.own);
    let reaches = |p: usize| match share {
        LOCAL => p == own,
        IS => s.inner[p] == s.inner[own],
        _ => s.outer[p] == s.outer[own],
    };
    (0..usize::from(s.count)).filter(|&p| reaches(p)).fold(0, |set, p| set | 1 << p)
}

/// The fine-grained trap flag of an E1 name and a shareability.
pub fn trap_flag(s: &State, name: u64, share: u64) -> bool {
    let (local, is, os) = match name {
        RVAE1 => (s.trap_rvae1, s.trap_rvae1is, s.trap_rvae1os),
        RVAAE1 => (s.trap_rvaae1, s.trap_rvaae1is, s.trap_rvaae1os),
        RVALE1 => (s.trap_rvale1, s.trap_rvale1is, s.trap_rvale1os),
        _ => (s.trap_rvaale1, s.trap_rvaale1is, s.trap_rvaale1os),
    };
    match share {
        LOCAL => local == 1,
        IS => is == 1,
        _ => os == 1,
    }
}
