//! Entries: the company that each belongs to, the rules that make one legal, and the addresses that it spans.

use super::record::Entry;
use super::span::{below, exponent};

pub const REGIME_EL10: u64 = 0;
pub const REGIME_EL20: u64 = 1;
pub const REGIME_EL2: u64 = 2;
pub const REGIME_EL3: u64 = 3;

pub const SECURE: u64 = 0;
pub const NON_SECURE: u64 = 1;
pub const REALM: u64 = 2;
pub const ROOT: u64 = 3;

/// "a company (regime, security state, VMID, stage, IPA space)".
#[derive(Clone, Copy, Debug, PartialEq, Eq)]
pub struct Company {
    pub regime: u64,
    pub security: u64,
    pub vmid: u64,
    pub stage2: u64,
    pub ns: u64,
}

impl Company {
    pub fn of(e: &Entry) -> Company {
        Company { regime: e.regime, security: e.security, vmid: e.vmid, stage2: e.stage2, ns: e.ns }
    }

    /// A company that an entry can have.
    pub fn is_legal(&self) -> bool {
        self.fits() && self.security_is_legal() && self.stage_is_legal()
    }

    fn fits(&self) -> bool {
        self.regime <= REGIME_EL3 && self.security <= ROOT && self.vmid <= 0xFFFF && self.stage2 <= 1 && self.ns <= 1
    }

    /// "EL3's state is Root or Secure; other regimes are never Root."
    fn security_is_legal(&self) -> bool {
        if self.regime == REGIME_EL3 {
            self.security == ROOT || self.security == SECURE
        } else {
            self.security != ROOT
        }
    }

    /// "VMID (0 outside EL1&0)", "IPA space (as NS; Secure stage 2 only, else 0)", "Stage 2 is EL1&0."
    fn stage_is_legal(&self) -> bool {
        let el10 = self.regime == REGIME_EL10;
        (el10 || (self.vmid == 0 && self.stage2 == 0)) && (self.ns == 0 || (self.stage2 == 1 && self.security == SECURE))
    }

    /// Stage 1 of EL1&0 and EL2&0: two ranges of addresses, and ASIDs.
    pub fn has_two_ranges(&self) -> bool {
        self.stage2 == 0 && (self.regime == REGIME_EL10 || self.regime == REGIME_EL20)
    }

    /// "bits 63:55 are equal (stage 1 of EL1&0 and EL2&0), or it is below 2^56 (all else)".
    pub fn holds_address(&self, address: u64) -> bool {
        if self.has_two_ranges() {
            address >> 55 == 0 || address >> 55 == 0x1FF
        } else {
            address >> 56 == 0
        }
    }
}

pub fn is_legal(e: &Entry) -> bool {
    let company = Company::of(e);
    fits(e) && company.is_legal() && level_is_legal(e) && asid_is_legal(e, &company) && base_is_legal(e, &company)
}

/// The fields that the company does not have; granule and level are looked at with the span.
fn fits(e: &Entry) -> bool {
    e.processor <= 7 && e.asid <= 0xFFFF && e.global <= 1 && e.leaf <= 1 && e.xs <= 1
}

/// "Non-leaf is level -1 to 2 and never global, leaf 1 to 3."
fn level_is_legal(e: &Entry) -> bool {
    if e.leaf == 1 {
        (1..=3).contains(&e.level)
    } else {
        (-1..=2).contains(&e.level) && e.global == 0
    }
}

/// "ASID and global flag (both 0 in EL2, EL3 and stage 2)".
fn asid_is_legal(e: &Entry, company: &Company) -> bool {
    company.has_two_ranges() || (e.asid == 0 && e.global == 0)
}

fn base_is_legal(e: &Entry, company: &Company) -> bool {
    match exponent(e.wide, e.granule, e.level) {
        Some(exponent) => e.base & below(exponent) == 0 && company.holds_address(e.base),
        None => false,
    }
}

/// The last address of a legal entry's span; its base is the first. For an entry without a span, the base.
pub fn last_address(e: &Entry) -> u64 {
    match exponent(e.wide, e.granule, e.level) {
        Some(exponent) => e.base | below(exponent),
        None => e.base,
    }
}
