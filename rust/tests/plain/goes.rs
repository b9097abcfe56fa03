//! What an operation that is carried out drops: 01's "An entry goes exactly when all hold", condition by condition.

use super::entry::{last_address, Company};
use super::record::Entry;

/// An operation that has passed every check, with its operand read.
#[derive(Clone, Copy, Debug)]
pub struct Effect {
    pub company: Company,
    pub reached: u64,
    pub granule: u64,
    pub ttl: u64,
    pub first: u64,
    pub last: u64,
    /// The operation's own width: 1 for TLBIP.
    pub wide: u64,
    pub d128: bool,
    pub leaves_only: bool,
    /// The ASID field, where it is used.
    pub asid: Option<u64>,
    /// NXS, or a plain name that acts as NXS.
    pub keeps_xs: bool,
}

impl Effect {
    pub fn drops(&self, e: &Entry) -> bool {
        self.meets(e.base, last_address(e)) && self.drops_if_met(e)
    }

    /// "its span meets the range".
    pub fn meets(&self, first: u64, last: u64) -> bool {
        first <= self.last && self.first <= last
    }

    /// Every condition but the addresses.
    pub fn drops_if_met(&self, e: &Entry) -> bool {
        self.reached >> e.processor & 1 == 1
            && Company::of(e) == self.company
            && e.granule == self.granule
            && self.hint_allows(e)
            && (e.leaf == 1 || !self.leaves_only)
            && self.asid_allows(e)
            && !(self.keeps_xs && e.xs == 1)
    }

    /// "TTL 00, or its width is the operation's and it is non-leaf above the TTL level or a leaf at it; another width needs TTL 00 and
    /// D128".
    fn hint_allows(&self, e: &Entry) -> bool {
        let same_width = e.wide == self.wide;
        if self.ttl == 0 {
            return same_width || self.d128;
        }
        let level = self.ttl as i64;
        same_width && if e.leaf == 1 { e.level == level } else { e.level < level }
    }

    /// "where an ASID applies, it agrees or the leaf is global".
    fn asid_allows(&self, e: &Entry) -> bool {
        self.asid.map_or(true, |asid| e.asid == asid || (e.leaf == 1 && e.global == 1))
    }
}
