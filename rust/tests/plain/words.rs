//! Instruction words: reading one as an operation, building one from an operation, and what a name says about itself.

use super::answer;
use super::record::Operation;

const SYS: u64 = 0xD508_0000;
const SYSP: u64 = 0xD548_0000;
/// Bits 31:19 are fixed; op1, CRn, CRm, op2 and Rt lie below.
const FIXED: u64 = 0xFFF8_0000;

pub const LOCAL: u64 = 0;
pub const IS: u64 = 1;
pub const OS: u64 = 2;

pub const RVAE1: u64 = 0;
pub const RVAAE1: u64 = 1;
pub const RVALE1: u64 = 2;
pub const RVAALE1: u64 = 3;
pub const RVAE2: u64 = 4;
pub const RVALE2: u64 = 5;
pub const RVAE3: u64 = 6;
pub const RVALE3: u64 = 7;
pub const RIPAS2E1: u64 = 8;
pub const RIPAS2LE1: u64 = 9;

/// Whose names these are: the rows of 01's access rules.
#[derive(Clone, Copy, PartialEq, Eq)]
pub enum Family {
    E1,
    E2,
    E3,
    Ripas2,
}

pub fn family(name: u64) -> Family {
    match name {
        RVAE1..=RVAALE1 => Family::E1,
        RVAE2 | RVALE2 => Family::E2,
        RVAE3 | RVALE3 => Family::E3,
        _ => Family::Ripas2,
    }
}

/// "if the name has L".
pub fn leaves_only(name: u64) -> bool {
    matches!(name, RVALE1 | RVAALE1 | RVALE2 | RVALE3 | RIPAS2LE1)
}

/// "SYSP with odd Rt below 31": in no list, and answer 3 when executed.
pub fn odd_pair(op: &Operation) -> bool {
    op.tlbip == 1 && op.rt % 2 == 1 && op.rt < 31
}

pub fn decode(word: u64) -> (u32, Operation) {
    match operation(word) {
        Some(op) => (answer::DONE, op),
        None => (answer::NOT_AN_OPERATION, Operation::default()),
    }
}

pub fn build(op: &Operation) -> (u32, u64) {
    if op.nxs > 1 || op.tlbip > 1 || op.rt > 31 {
        return (answer::BREAKS_A_RULE, 0);
    }
    match numbers(op.name, op.share) {
        Some((op1, crm, op2)) => {
            let form = if op.tlbip == 1 { SYSP } else { SYS };
            let crn = 8 + op.nxs;
            (answer::DONE, form | op1 << 16 | crn << 12 | crm << 8 | op2 << 5 | op.rt)
        }
        None => (answer::BREAKS_A_RULE, 0),
    }
}

pub fn operation(word: u64) -> Option<Operation> {
    // The mask leaves bits 63:32 out of FIXED, so a word of 2^32 or more has to be turned away here.
    if word > u64::from(u32::MAX) {
        return None;
    }
    let tlbip = match word & FIXED {
        SYS => 0,
        SYSP => 1,
        _ => return None,
    };
    let nxs = match word >> 12 & 15 {
        8 => 0,
        9 => 1,
        _ => return None,
    };
    let (name, share) = row(word >> 16 & 7, word >> 8 & 15, word >> 5 & 7)?;
    let rt = word & 31;
    Some(Operation { name, share, nxs, tlbip, rt })
}

/// "Each (op1, CRm, op2) is decided by its numbers".
fn row(op1: u64, crm: u64, op2: u64) -> Option<(u64, u64)> {
    match (op1, crm, op2) {
        (4, 0, 2) => Some((RIPAS2E1, IS)),
        (4, 0, 6) => Some((RIPAS2LE1, IS)),
        (4, 4, 2) => Some((RIPAS2E1, LOCAL)),
        (4, 4, 6) => Some((RIPAS2LE1, LOCAL)),
        (4, 4, 3) => Some((RIPAS2E1, OS)),
        (4, 4, 7) => Some((RIPAS2LE1, OS)),
        _ => Some((by_address(op1, op2)?, share_of(crm)?)),
    }
}

fn by_address(op1: u64, op2: u64) -> Option<u64> {
    match (op1, op2) {
        (0, 1) => Some(RVAE1),
        (0, 3) => Some(RVAAE1),
        (0, 5) => Some(RVALE1),
        (0, 7) => Some(RVAALE1),
        (4, 1) => Some(RVAE2),
        (4, 5) => Some(RVALE2),
        (6, 1) => Some(RVAE3),
        (6, 5) => Some(RVALE3),
        _ => None,
    }
}

fn share_of(crm: u64) -> Option<u64> {
    match crm {
        2 => Some(IS),
        5 => Some(OS),
        6 => Some(LOCAL),
        _ => None,
    }
}

/// The other direction: (op1, CRm, op2) of a name and a shareability, none if there is no such name or shareability.
fn numbers(name: u64, share: u64) -> Option<(u64, u64, u64)> {
    let crm = match share {
        LOCAL => 6,
        IS => 2,
        OS => 5,
        _ => return None,
    };
    match name {
        RVAE1 => Some((0, crm, 1)),
        RVAAE1 => Some((0, crm, 3)),
        RVALE1 => Some((0, crm, 5)),
        RVAALE1 => Some((0, crm, 7)),
        RVAE2 => Some((4, crm, 1)),
        RVALE2 => Some((4, crm, 5)),
        RVAE3 => Some((6, crm, 1)),
        RVALE3 => Some((6, crm, 5)),
        RIPAS2E1 => Some(by_ipa(share, 2)),
        RIPAS2LE1 => Some(by_ipa(share, 6)),
        _ => None,
    }
}

fn by_ipa(share: u64, op2: u64) -> (u64, u64, u64) {
    match share {
        IS => (4, 0, op2),
        OS => (4, 4, op2 + 1),
        _ => (4, 4, op2),
    }
}
