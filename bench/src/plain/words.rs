//! Instruction words, read and built.

use super::answer;
use crate::records::{Built, Operation};

const SYS: u64 = 0xD508_0000;
const SYSP: u64 = 0xD548_0000;

#[derive(Clone, Copy, PartialEq, Eq)]
pub enum Name {
    Rvae1,
    Rvaae1,
    Rvale1,
    Rvaale1,
    Rvae2,
    Rvale2,
    Rvae3,
    Rvale3,
    Ripas2e1,
    Ripas2le1,
}

#[derive(Clone, Copy, PartialEq, Eq)]
pub enum Share {
    Local,
    Inner,
    Outer,
}

/// What a word says.
#[derive(Clone, Copy)]
pub struct Parts {
    pub name: Name,
    pub share: Share,
    pub nxs: bool,
    pub tlbip: bool,
    pub rt: u8,
}

impl Parts {
    /// SYSP with odd Rt below 31.
    pub fn is_odd_pair(&self) -> bool {
        self.tlbip && self.rt % 2 == 1 && self.rt < 31
    }
}

impl Name {
    /// The name has L: leaves only.
    pub fn has_l(self) -> bool {
        matches!(self, Name::Rvale1 | Name::Rvaale1 | Name::Rvale2 | Name::Rvale3 | Name::Ripas2le1)
    }
}

pub fn decode(word: u64, out: &mut Operation) -> u32 {
    match read(word) {
        Some(op) => {
            *out = Operation {
                name: op.name as u64,
                share: op.share as u64,
                nxs: u64::from(op.nxs),
                tlbip: u64::from(op.tlbip),
                rt: u64::from(op.rt),
            };
            answer::DONE
        }
        None => {
            *out = Operation::default();
            answer::UNKNOWN
        }
    }
}

/// Bits above 31 are among those that are compared, so a word of 2^32 or more is none.
pub fn read(word: u64) -> Option<Parts> {
    let tlbip = match word & !0x7_FFFF {
        SYS => false,
        SYSP => true,
        _ => return None,
    };
    let nxs = match word >> 12 & 15 {
        8 => false,
        9 => true,
        _ => return None,
    };
    let (name, share) = row(word >> 16 & 7, word >> 8 & 15, word >> 5 & 7)?;
    Some(Parts { name, share, nxs, tlbip, rt: (word & 31) as u8 })
}

fn row(op1: u64, crm: u64, op2: u64) -> Option<(Name, Share)> {
    let share = match crm {
        2 => Share::Inner,
        5 => Share::Outer,
        6 => Share::Local,
        _ => return if op1 == 4 { stage2_row(crm, op2) } else { None },
    };
    let name = match (op1, op2) {
        (0, 1) => Name::Rvae1,
        (0, 3) => Name::Rvaae1,
        (0, 5) => Name::Rvale1,
        (0, 7) => Name::Rvaale1,
        (4, 1) => Name::Rvae2,
        (4, 5) => Name::Rvale2,
        (6, 1) => Name::Rvae3,
        (6, 5) => Name::Rvale3,
        _ => return None,
    };
    Some((name, share))
}

fn stage2_row(crm: u64, op2: u64) -> Option<(Name, Share)> {
    match (crm, op2) {
        (0, 2) => Some((Name::Ripas2e1, Share::Inner)),
        (0, 6) => Some((Name::Ripas2le1, Share::Inner)),
        (4, 2) => Some((Name::Ripas2e1, Share::Local)),
        (4, 6) => Some((Name::Ripas2le1, Share::Local)),
        (4, 3) => Some((Name::Ripas2e1, Share::Outer)),
        (4, 7) => Some((Name::Ripas2le1, Share::Outer)),
        _ => None,
    }
}

pub fn build(op: &Operation, out: &mut Built) -> u32 {
    *out = Built::default();
    if op.nxs > 1 || op.tlbip > 1 || op.rt > 31 {
        return answer::BREAKS_RULE;
    }
    match numbers(op.name, op.share) {
        Some((op1, crm, op2)) => {
            let fixed = if op.tlbip == 1 { SYSP } else { SYS };
            out.word = fixed | op1 << 16 | (8 + op.nxs) << 12 | crm << 8 | op2 << 5 | op.rt;
            answer::DONE
        }
        None => answer::BREAKS_RULE,
    }
}

/// op1, CRm and op2 of a name and a shareability.
fn numbers(name: u64, share: u64) -> Option<(u64, u64, u64)> {
    let crm = *[6, 2, 5].get(share as usize)?;
    match name {
        0..=3 => Some((0, crm, 2 * name + 1)),
        4 | 5 => Some((4, crm, 4 * (name - 4) + 1)),
        6 | 7 => Some((6, crm, 4 * (name - 6) + 1)),
        8 | 9 => {
            let op2 = 4 * (name - 8) + 2;
            Some((4, if share == 1 { 0 } else { 4 }, if share == 2 { op2 + 1 } else { op2 }))
        }
        _ => None,
    }
}
