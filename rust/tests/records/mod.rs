//! The plain implementation's records as those of the archive: the same values, field by field, at the places that the header gives them.
use crate::plain::record as plain;
use chickadoor::raw;

/// An answer of the plain implementation with its record as the archive has it.
pub fn as_raw<P, R: From<P>>((answer, record): (u32, P)) -> (u32, R) {
    (answer, record.into())
}

/// Records that have the same fields on both sides.
macro_rules! same {
    ($($record:ident { $($field:ident),* })*) => {
        $(impl From<plain::$record> for raw::$record {
            fn from(record: plain::$record) -> Self {
                raw::$record { $($field: record.$field),* }
            }
        })*
    };
}

same! {
    Operation { name, share, nxs, tlbip, rt }
    Told { tlbip, form, lpa2, unit64k }
    Fields { asid, ns, tg, scale, num, ttl, base }
    Words { xt, xt2 }
    Inserted { slot }
    Found { slot, output, examined }
    Executed { dropped, trap }
    Ran { dropped, step }
    Listed { used, written }
}

impl From<plain::State> for raw::State {
    fn from(s: plain::State) -> Self {
        raw::State {
            el: s.el,
            present: raw::Present { el2: s.el2, el3: s.el3 },
            features: features(&s),
            scr: raw::Scr { ns: s.scr_ns, nse: s.scr_nse, eel2: s.scr_eel2, fgten: s.scr_fgten, hxen: s.scr_hxen },
            hcr: hcr(&s),
            hcrx: raw::Hcrx { fnxs: s.hcrx_fnxs, fgtnxs: s.hcrx_fgtnxs },
            traps: traps(&s),
            ds: raw::Ds { el1: s.ds_el1, el2: s.ds_el2, el3: s.ds_el3, stage2: s.ds_stage2 },
            board: raw::Board { own: s.own, count: s.count, inner: s.inner, outer: s.outer },
            vmid: s.vmid,
        }
    }
}

fn features(s: &plain::State) -> raw::Features {
    raw::Features {
        tlbirange: s.tlbirange,
        tlbios: s.tlbios,
        d128: s.d128,
        xs: s.xs,
        lpa2: s.lpa2,
        rme: s.rme,
        sel2: s.sel2,
        fgt: s.fgt,
        hcx: s.hcx,
    }
}

fn hcr(s: &plain::State) -> raw::Hcr {
    raw::Hcr { e2h: s.hcr_e2h, tge: s.hcr_tge, ttlb: s.hcr_ttlb, ttlbis: s.hcr_ttlbis, ttlbos: s.hcr_ttlbos, nv: s.hcr_nv }
}

fn traps(s: &plain::State) -> raw::Traps {
    raw::Traps {
        rvae1: raw::Flags { local: s.trap_rvae1, inner: s.trap_rvae1is, outer: s.trap_rvae1os },
        rvaae1: raw::Flags { local: s.trap_rvaae1, inner: s.trap_rvaae1is, outer: s.trap_rvaae1os },
        rvale1: raw::Flags { local: s.trap_rvale1, inner: s.trap_rvale1is, outer: s.trap_rvale1os },
        rvaale1: raw::Flags { local: s.trap_rvaale1, inner: s.trap_rvaale1is, outer: s.trap_rvaale1os },
    }
}

impl From<plain::Entry> for raw::Entry {
    fn from(e: plain::Entry) -> Self {
        raw::Entry {
            processor: e.processor,
            company: raw::Company { regime: e.regime, security: e.security, vmid: e.vmid, stage2: e.stage2, ns: e.ns },
            asid: e.asid,
            global: e.global,
            wide: e.wide,
            granule: e.granule,
            level: e.level,
            leaf: e.leaf,
            xs: e.xs,
            base: e.base,
        }
    }
}

impl From<plain::Target> for raw::Target {
    fn from(t: plain::Target) -> Self {
        raw::Target {
            company: raw::Company { regime: t.regime, security: t.security, vmid: t.vmid, stage2: t.stage2, ns: t.ns },
            wide: t.wide,
            granule: t.granule,
            one: t.one,
            asid: t.asid,
            leaves: t.leaves,
            processors: t.processors,
            first: t.first,
            last: t.last,
        }
    }
}

impl From<plain::Slot> for raw::Slot {
    fn from(s: plain::Slot) -> Self {
        raw::Slot { entry: s.entry.into(), output: s.output }
    }
}

impl From<plain::Judged> for raw::Judged {
    fn from(j: plain::Judged) -> Self {
        raw::Judged { survivor: j.survivor.into(), step: j.step }
    }
}
