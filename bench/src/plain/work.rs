//! What an operation comes to with its operand, and which entries it drops.

use super::access::{access, Refusal, Scope};
use super::answer;
use super::operand::{fields, is_unpredictable, last, ONE_RANGE, STAGE2, STAGE2_NS, TWO_RANGES, TWO_RANGES_ASID};
use super::slot::{asid, company_tag, exponent_at, has_xs, height, is_entry, is_global, is_leaf, is_wide, processor, KEY_BITS};
use super::state::{reached, security_in, unit_64k, vmid_in, EL10, EL20, SECURE};
use super::words::{read, Parts};
use crate::records::{Company, State, Told};

#[derive(Clone, Copy, Default)]
pub struct Work {
    /// Bits 27:0 of the tag of every entry of the company and the granule.
    pub key: u64,
    pub reached: u64,
    pub first: u64,
    pub last: u64,
    /// The level that TTL names, or 0.
    pub ttl: u64,
    pub wide: bool,
    pub d128: bool,
    pub leaves: bool,
    pub one: bool,
    pub asid: u64,
    pub nxs: bool,
}

/// What a word and two register words come to in a good state.
pub fn resolve(s: &State, word: u64, xt: u64, xt2: u64) -> Result<Work, Refusal> {
    let op = read(word).ok_or((answer::UNKNOWN, 0))?;
    let scope = access(s, &op)?;
    let security = security_in(s, scope.regime);
    let told = told(s, &op, &scope, security);
    let (xt, xt2) = match op.rt {
        31 => (0, 0),
        30 => (xt, 0),
        _ => (xt, xt2),
    };
    let fields = fields(&told, xt, xt2).ok_or((answer::NO_GRANULE, 0))?;
    if is_unpredictable(op.tlbip, &fields) {
        return Err((answer::UNPREDICTABLE, 0));
    }
    let (regime, vmid, stage2) = (scope.regime, vmid_in(s, scope.regime), u64::from(scope.stage2));
    Ok(Work {
        key: company_tag(&Company { regime, security, vmid, stage2, ns: fields.ns }) | fields.tg << 26,
        reached: reached(s, op.share),
        first: fields.base,
        last: last(&fields),
        ttl: fields.ttl,
        wide: op.tlbip,
        d128: s.features.d128 == 1,
        leaves: op.name.has_l(),
        one: scope.asid,
        asid: fields.asid,
        nxs: scope.nxs,
    })
}

fn told(s: &State, op: &Parts, scope: &Scope, security: u64) -> Told {
    let form = match scope.regime {
        EL10 if scope.stage2 && security == SECURE => STAGE2_NS,
        EL10 if scope.stage2 => STAGE2,
        EL10 | EL20 if scope.asid => TWO_RANGES_ASID,
        EL10 | EL20 => TWO_RANGES,
        _ => ONE_RANGE,
    };
    let unit64k = unit_64k(s, scope.regime, scope.stage2);
    Told { tlbip: u64::from(op.tlbip), form, lpa2: u64::from(s.features.lpa2), unit64k: u64::from(unit64k) }
}

impl Work {
    /// Whether a slot goes. What turns most slots away comes first, and whether the slot makes sense last.
    pub fn drops(&self, base: u64, tag: u64) -> bool {
        tag & KEY_BITS == self.key && self.meets(base, base | ((1 << exponent_at(tag)) - 1)) && self.takes(tag) && is_entry(base, tag)
    }

    /// The range has an address between two in common.
    pub fn meets(&self, first: u64, last: u64) -> bool {
        (first <= self.last) & (self.first <= last)
    }

    /// The conditions that are neither of the key nor of addresses.
    pub fn takes(&self, tag: u64) -> bool {
        self.reached >> processor(tag) & 1 == 1
            && (is_leaf(tag) || !self.leaves)
            && (!self.one || asid(tag) == self.asid || (is_leaf(tag) && is_global(tag)))
            && !(self.nxs && has_xs(tag))
            && self.hint_takes(tag)
    }

    fn hint_takes(&self, tag: u64) -> bool {
        let same_width = is_wide(tag) == self.wide;
        if self.ttl == 0 {
            return same_width || self.d128;
        }
        let hinted = 3 - self.ttl;
        same_width && if is_leaf(tag) { height(tag) == hinted } else { height(tag) > hinted }
    }
}
