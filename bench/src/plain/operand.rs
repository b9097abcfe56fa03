//! Operands: their fields read and written, the range they mean, and where it is UNPREDICTABLE.

use super::answer;
use super::slot::exponent;
use crate::records::{Fields, Told, Words};

pub const TWO_RANGES_ASID: u64 = 0;
pub const TWO_RANGES: u64 = 1;
pub const ONE_RANGE: u64 = 2;
pub const STAGE2_NS: u64 = 3;
pub const STAGE2: u64 = 4;

const TLBI_BASE: u64 = (1 << 37) - 1;
const TLBIP_BASE: u64 = (1 << 44) - 1;

pub fn read_operand(told: &Told, xt: u64, xt2: u64, out: &mut Fields) -> u32 {
    *out = Fields::default();
    if !told_fits(told) {
        return answer::BREAKS_RULE;
    }
    match fields(told, xt, xt2) {
        Some(fields) => {
            *out = fields;
            answer::DONE
        }
        None => answer::NO_GRANULE,
    }
}

pub fn write_operand(told: &Told, fields: &Fields, out: &mut Words) -> u32 {
    *out = Words::default();
    if !told_fits(told) || !fields_fit(told, fields) {
        return answer::BREAKS_RULE;
    }
    let words = words(told, fields);
    if base(told, fields.tg, words.xt, words.xt2) != fields.base {
        return answer::BREAKS_RULE;
    }
    *out = words;
    answer::DONE
}

fn told_fits(told: &Told) -> bool {
    told.tlbip < 2 && told.form < 5 && told.lpa2 < 2 && told.unit64k < 2
}

/// None if TG is 00.
pub fn fields(told: &Told, xt: u64, xt2: u64) -> Option<Fields> {
    let tg = xt >> 46 & 3;
    if tg == 0 {
        return None;
    }
    let ttl = xt >> 37 & 3;
    Some(Fields {
        asid: if told.form == TWO_RANGES_ASID { xt >> 48 } else { 0 },
        ns: if told.form == STAGE2_NS { xt >> 63 } else { 0 },
        tg,
        scale: xt >> 44 & 3,
        num: xt >> 39 & 31,
        ttl: if reads_as_none(told, tg, ttl) { 0 } else { ttl },
        base: base(told, tg, xt, xt2),
    })
}

fn reads_as_none(told: &Told, tg: u64, ttl: u64) -> bool {
    ttl == 1 && tg == 2 && told.lpa2 == 0
}

pub fn granule_exponent(tg: u64) -> u64 {
    10 + 2 * tg
}

fn unit_exponent(told: &Told, tg: u64) -> u64 {
    if told.unit64k == 1 {
        16
    } else {
        granule_exponent(tg)
    }
}

/// The base as an address: two ranges copy its top bit upward.
fn base(told: &Told, tg: u64, xt: u64, xt2: u64) -> u64 {
    let (base, top) = if told.tlbip == 1 {
        let granule = granule_exponent(tg);
        ((xt2 & TLBIP_BASE) << 12 >> granule << granule, 55)
    } else {
        let unit = unit_exponent(told, tg);
        ((xt & TLBI_BASE) << unit, 36 + unit)
    };
    if told.form <= TWO_RANGES {
        ((base << (63 - top)) as i64 >> (63 - top)) as u64
    } else {
        base
    }
}

fn fields_fit(told: &Told, f: &Fields) -> bool {
    let most_asid = if told.form == TWO_RANGES_ASID { 0xFFFF } else { 0 };
    let most_ns = if told.form == STAGE2_NS { 1 } else { 0 };
    (1..=3).contains(&f.tg)
        && f.asid <= most_asid
        && f.ns <= most_ns
        && f.scale < 4
        && f.num < 32
        && f.ttl < 4
        && !reads_as_none(told, f.tg, f.ttl)
}

fn words(told: &Told, f: &Fields) -> Words {
    let xt = f.ns << 63 | f.asid << 48 | f.tg << 46 | f.scale << 44 | f.num << 39 | f.ttl << 37;
    if told.tlbip == 1 {
        Words { xt, xt2: f.base >> 12 & TLBIP_BASE }
    } else {
        Words { xt: xt | (f.base >> unit_exponent(told, f.tg) & TLBI_BASE), xt2: 0 }
    }
}

/// The last address of the range: it ends at 2^64 at most.
pub fn last(f: &Fields) -> u64 {
    let length = (f.num + 1) << (5 * f.scale + 1) << granule_exponent(f.tg);
    f.base.saturating_add(length - 1)
}

pub fn is_unpredictable(tlbip: bool, f: &Fields) -> bool {
    let exponent = match (tlbip, f.tg, f.ttl) {
        (_, _, 0) => return false,
        (true, tg, ttl) => u64::from(exponent(true, tg, 3 - ttl)),
        (false, 1, 1) => 30,
        (false, 1, 2) => 21,
        (false, 2, 2) => 25,
        (false, 3, 1) => 42,
        (false, 3, 2) => 29,
        _ => return false,
    };
    f.base & ((1 << exponent) - 1) != 0
}
