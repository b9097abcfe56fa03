//! The processor that runs an instruction, and its board.
use crate::raw;

/// Which of the upper exception levels there are.
#[derive(Clone, Copy, Debug, Default, PartialEq, Eq)]
#[allow(missing_docs)]
pub struct Present {
    pub el2: bool,
    pub el3: bool,
}

/// The features that the rules ask for, by the names of FEAT_*.
#[derive(Clone, Copy, Debug, Default, PartialEq, Eq)]
#[allow(missing_docs)]
pub struct Features {
    pub tlbirange: bool,
    pub tlbios: bool,
    pub d128: bool,
    pub xs: bool,
    pub lpa2: bool,
    pub rme: bool,
    pub sel2: bool,
    pub fgt: bool,
    pub hcx: bool,
}

/// SCR_EL3. It is not read without EL3.
#[derive(Clone, Copy, Debug, Default, PartialEq, Eq)]
#[allow(missing_docs)]
pub struct Scr {
    pub ns: bool,
    pub nse: bool,
    pub eel2: bool,
    pub fgten: bool,
    pub hxen: bool,
}

/// HCR_EL2. Its bits count as 0 while EL2 is disabled.
#[derive(Clone, Copy, Debug, Default, PartialEq, Eq)]
#[allow(missing_docs)]
pub struct Hcr {
    pub e2h: bool,
    pub tge: bool,
    pub ttlb: bool,
    pub ttlbis: bool,
    pub ttlbos: bool,
    pub nv: bool,
}

/// HCRX_EL2.
#[derive(Clone, Copy, Debug, Default, PartialEq, Eq)]
#[allow(missing_docs)]
pub struct Hcrx {
    pub fnxs: bool,
    pub fgtnxs: bool,
}

/// One trap flag for each shareability.
#[derive(Clone, Copy, Debug, Default, PartialEq, Eq)]
pub struct Flags {
    /// Of the name by itself.
    pub local: bool,
    /// Of the name with IS.
    pub inner: bool,
    /// Of the name with OS.
    pub outer: bool,
}

/// The fine-grained traps of HFGITR_EL2.
#[derive(Clone, Copy, Debug, Default, PartialEq, Eq)]
#[allow(missing_docs)]
pub struct Traps {
    pub rvae1: Flags,
    pub rvaae1: Flags,
    pub rvale1: Flags,
    pub rvaale1: Flags,
}

/// DS of TCR_EL1, TCR_EL2, TCR_EL3 and VTCR_EL2.
#[derive(Clone, Copy, Debug, Default, PartialEq, Eq)]
#[allow(missing_docs)]
pub struct Ds {
    pub el1: bool,
    pub el2: bool,
    pub el3: bool,
    pub stage2: bool,
}

/// The processors of a board. The default is one, in domain 0.
#[derive(Clone, Copy, Debug, PartialEq, Eq)]
pub struct Board {
    /// The number of the processor that runs the instruction, below the count.
    pub own: u8,
    /// How many there are, 1 to 8.
    pub count: u8,
    /// The inner shareable domain of each; any number names one. Those at or above the count are not read.
    pub inner: [u8; 8],
    /// The outer shareable domain of each. Processors of one inner domain are of one outer domain.
    pub outer: [u8; 8],
}

impl Default for Board {
    fn default() -> Self {
        Board { own: 0, count: 1, inner: [0; 8], outer: [0; 8] }
    }
}

/// The state of the processor that runs an instruction. The default is EL0 of one processor with no feature. `include/chickadoor.h` says which states
/// cannot be.
#[derive(Clone, Copy, Debug, Default, PartialEq, Eq)]
pub struct State {
    /// The current exception level, 0 to 3.
    pub el: u8,
    /// The exception levels that there are besides EL0 and EL1.
    pub present: Present,
    /// The features that there are.
    pub features: Features,
    /// SCR_EL3.
    pub scr: Scr,
    /// HCR_EL2.
    pub hcr: Hcr,
    /// HCRX_EL2.
    pub hcrx: Hcrx,
    /// HFGITR_EL2.
    pub traps: Traps,
    /// DS of each regime.
    pub ds: Ds,
    /// VTTBR_EL2.VMID; it counts as 0 while EL2 is disabled.
    pub vmid: u16,
    /// The processors.
    pub board: Board,
}

/// Each flag as a byte.
macro_rules! flags {
    ($($record:ident { $($field:ident),* })*) => {
        $(impl From<$record> for raw::$record {
            fn from(record: $record) -> Self {
                raw::$record { $($field: record.$field.into()),* }
            }
        })*
    };
}

flags! {
    Present { el2, el3 }
    Features { tlbirange, tlbios, d128, xs, lpa2, rme, sel2, fgt, hcx }
    Scr { ns, nse, eel2, fgten, hxen }
    Hcr { e2h, tge, ttlb, ttlbis, ttlbos, nv }
    Hcrx { fnxs, fgtnxs }
    Flags { local, inner, outer }
    Ds { el1, el2, el3, stage2 }
    Traps { rvae1, rvaae1, rvale1, rvaale1 }
}

impl From<&State> for raw::State {
    fn from(state: &State) -> Self {
        let State { el, present, features, scr, hcr, hcrx, traps, ds, vmid, board } = *state;
        let Board { own, count, inner, outer } = board;
        raw::State {
            present: present.into(),
            features: features.into(),
            scr: scr.into(),
            hcr: hcr.into(),
            hcrx: hcrx.into(),
            traps: traps.into(),
            ds: ds.into(),
            el,
            vmid,
            board: raw::Board { own, count, inner, outer },
        }
    }
}
