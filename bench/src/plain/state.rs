//! The processor state: whether it is bad, and what follows from its fields.

use super::words::{Name, Share};
use crate::records::{Flags, State};

pub const EL10: u64 = 0;
pub const EL20: u64 = 1;
pub const EL2: u64 = 2;
pub const EL3: u64 = 3;

pub const SECURE: u64 = 0;
pub const NON_SECURE: u64 = 1;
pub const REALM: u64 = 2;
pub const ROOT: u64 = 3;

pub fn is_bad(s: &State) -> bool {
    all_flags(s) > 1 || is_bad_level(s) || is_bad_security(s) || is_bad_board(s)
}

/// All flags in one: over 1 exactly if one of them is.
fn all_flags(s: &State) -> u8 {
    let f = &s.features;
    let features = f.tlbirange | f.tlbios | f.d128 | f.xs | f.lpa2 | f.rme | f.sel2 | f.fgt | f.hcx;
    let scr = s.scr.ns | s.scr.nse | s.scr.eel2 | s.scr.fgten | s.scr.hxen;
    let hcr = s.hcr.e2h | s.hcr.tge | s.hcr.ttlb | s.hcr.ttlbis | s.hcr.ttlbos | s.hcr.nv;
    let any = |t: &Flags| t.local | t.inner | t.outer;
    let traps = any(&s.traps.rvae1) | any(&s.traps.rvaae1) | any(&s.traps.rvale1) | any(&s.traps.rvaale1);
    let ds = s.ds.el1 | s.ds.el2 | s.ds.el3 | s.ds.stage2;
    s.present.el2 | s.present.el3 | features | scr | hcr | s.hcrx.fnxs | s.hcrx.fgtnxs | traps | ds
}

fn is_bad_level(s: &State) -> bool {
    match s.el {
        0 | 1 => false,
        2 => !el2_enabled(s),
        3 => s.present.el3 == 0,
        _ => true,
    }
}

fn is_bad_security(s: &State) -> bool {
    s.features.rme == 1 && (s.present.el3 == 0 || (s.scr.nse == 1 && s.scr.ns == 0))
}

fn is_bad_board(s: &State) -> bool {
    let b = &s.board;
    if b.count < 1 || b.count > 8 || b.own >= b.count {
        return true;
    }
    let count = usize::from(b.count);
    (1..count).any(|p| (0..p).any(|q| b.inner[p] == b.inner[q] && b.outer[p] != b.outer[q]))
}

fn security(s: &State) -> u64 {
    if s.present.el3 == 0 {
        NON_SECURE
    } else if s.scr.ns == 0 {
        SECURE
    } else if s.features.rme == 1 && s.scr.nse == 1 {
        REALM
    } else {
        NON_SECURE
    }
}

/// The security state of a regime's entries.
pub fn security_in(s: &State, regime: u64) -> u64 {
    if regime != EL3 {
        security(s)
    } else if s.features.rme == 1 {
        ROOT
    } else {
        SECURE
    }
}

pub fn el2_enabled(s: &State) -> bool {
    s.present.el2 == 1 && (security(s) != SECURE || (s.features.sel2 == 1 && s.scr.eel2 == 1))
}

/// The VMID of a regime's entries.
pub fn vmid_in(s: &State, regime: u64) -> u64 {
    if regime == EL10 && el2_enabled(s) {
        u64::from(s.vmid)
    } else {
        0
    }
}

pub fn hcrx_live(s: &State) -> bool {
    s.features.hcx == 1 && (s.present.el3 == 0 || s.scr.hxen == 1) && el2_enabled(s)
}

/// Whether a TLBI base is in units of 64 KiB.
pub fn unit_64k(s: &State, regime: u64, stage2: bool) -> bool {
    let ds = match regime {
        EL10 if stage2 => s.ds.stage2,
        EL10 => s.ds.el1,
        EL3 => s.ds.el3,
        _ => s.ds.el2,
    };
    s.features.lpa2 == 1 && ds == 1
}

/// A bit for each processor that an operation reaches.
pub fn reached(s: &State, share: Share) -> u64 {
    let b = &s.board;
    let own = usize::from(b.own);
    let same = |domains: &[u8; 8]| domains.iter().enumerate().fold(0, |set, (p, d)| set | u64::from(*d == domains[own]) << p);
    let all = match share {
        Share::Local => 1 << own,
        Share::Inner => same(&b.inner),
        Share::Outer => same(&b.outer),
    };
    all & ((1 << b.count) - 1)
}

/// The fine-grained trap flag of an E1 name.
pub fn trap_flag(s: &State, name: Name, share: Share) -> bool {
    let flags = match name {
        Name::Rvae1 => &s.traps.rvae1,
        Name::Rvaae1 => &s.traps.rvaae1,
        Name::Rvale1 => &s.traps.rvale1,
        _ => &s.traps.rvaale1,
    };
    let flag = match share {
        Share::Local => flags.local,
        Share::Inner => flags.inner,
        Share::Outer => flags.outer,
    };
    flag == 1
}
