//! Operands: reading and writing their fields, their length, and where the range is UNPREDICTABLE.

use super::answer;
use super::record::{Fields, Told, Words};
use super::span::{below, exponent, granule_exponent};

pub const TWO_RANGES_WITH_ASID: u64 = 0;
pub const TWO_RANGES: u64 = 1;
pub const ONE_RANGE: u64 = 2;
pub const STAGE_2_WITH_NS: u64 = 3;
pub const STAGE_2: u64 = 4;

/// Bits 36:0 of Xt hold a TLBI's base, bits 43:0 of Xt2 a TLBIP's.
const TLBI_BASE: u64 = (1 << 37) - 1;
const TLBIP_BASE: u64 = (1 << 44) - 1;

pub fn read_operand(told: &Told, xt: u64, xt2: u64) -> (u32, Fields) {
    if !told_fits(told) {
        return (answer::BREAKS_A_RULE, Fields::default());
    }
    match fields(told, xt, xt2) {
        Some(fields) => (answer::DONE, fields),
        None => (answer::NO_GRANULE, Fields::default()),
    }
}

pub fn write_operand(told: &Told, fields: &Fields) -> (u32, Words) {
    if !told_fits(told) || !fields_fit(told, fields) || !base_can_be_shown(told, fields) {
        return (answer::BREAKS_A_RULE, Words::default());
    }
    (answer::DONE, words(told, fields))
}

fn told_fits(told: &Told) -> bool {
    told.tlbip <= 1 && told.form <= STAGE_2 && told.lpa2 <= 1 && told.unit64k <= 1
}

/// The fields of an operand, none if TG is 00. The told values have been looked at.
pub fn fields(told: &Told, xt: u64, xt2: u64) -> Option<Fields> {
    let tg = xt >> 46 & 3;
    if tg == 0 {
        return None;
    }
    let ttl = xt >> 37 & 3;
    Some(Fields {
        asid: if told.form == TWO_RANGES_WITH_ASID { xt >> 48 } else { 0 },
        ns: if told.form == STAGE_2_WITH_NS { xt >> 63 } else { 0 },
        tg,
        scale: xt >> 44 & 3,
        num: xt >> 39 & 31,
        ttl: if reads_as_none(told, tg, ttl) { 0 } else { ttl },
        base: base(told, tg, xt, xt2),
    })
}

/// "TTL 01 with 16K and no LPA2 reads as 00."
fn reads_as_none(told: &Told, tg: u64, ttl: u64) -> bool {
    ttl == 1 && tg == 2 && told.lpa2 == 0
}

/// "EL1&0 and EL2&0 stage 1 bases copy their top bit upward; others extend by zero."
fn base(told: &Told, tg: u64, xt: u64, xt2: u64) -> u64 {
    let (base, top) = if told.tlbip == 1 {
        ((xt2 & TLBIP_BASE) << 12 & !below(granule_exponent(tg)), 55)
    } else {
        let unit = unit_exponent(told, tg);
        ((xt & TLBI_BASE) << unit, 36 + unit)
    };
    if told.form <= TWO_RANGES {
        copy_upward(base, top)
    } else {
        base
    }
}

fn copy_upward(value: u64, top: u32) -> u64 {
    let above = 63 - top;
    ((value << above) as i64 >> above) as u64
}

/// The unit of a TLBI's base.
fn unit_exponent(told: &Told, tg: u64) -> u32 {
    if told.unit64k == 1 {
        16
    } else {
        granule_exponent(tg)
    }
}

/// The writer's 8, all but the base: "if a field doesn't fit, TG is 00, a field the form lacks isn't 0, TTL is 01 where that reads as 00".
fn fields_fit(told: &Told, f: &Fields) -> bool {
    let asid_most = if told.form == TWO_RANGES_WITH_ASID { 0xFFFF } else { 0 };
    let ns_most = if told.form == STAGE_2_WITH_NS { 1 } else { 0 };
    f.asid <= asid_most
        && f.ns <= ns_most
        && (1..=3).contains(&f.tg)
        && f.scale <= 3
        && f.num <= 31
        && f.ttl <= 3
        && !reads_as_none(told, f.tg, f.ttl)
}

/// A base can be shown exactly if the words written for it read back as it.
fn base_can_be_shown(told: &Told, f: &Fields) -> bool {
    let words = words(told, f);
    base(told, f.tg, words.xt, words.xt2) == f.base
}

fn words(told: &Told, f: &Fields) -> Words {
    let xt = f.asid << 48 | f.ns << 63 | f.tg << 46 | f.scale << 44 | f.num << 39 | f.ttl << 37;
    if told.tlbip == 1 {
        let xt2 = f.base >> 12 & TLBIP_BASE;
        Words { xt, xt2 }
    } else {
        let low = f.base >> unit_exponent(told, f.tg) & TLBI_BASE;
        Words { xt: xt | low, xt2: 0 }
    }
}

/// The last address: "Length is (NUM + 1) times 2^(5 SCALE + 1) granules. The sum doesn't wrap: a range ends at 2^64 at most."
pub fn last(f: &Fields) -> u64 {
    let granules = (f.num + 1) << (5 * f.scale + 1);
    let length = granules << granule_exponent(f.tg);
    f.base.saturating_add(length - 1)
}

/// Answer 7, on the base as read.
pub fn is_unpredictable(tlbip: u64, f: &Fields) -> bool {
    let aligned = if tlbip == 1 { wide_alignment(f) } else { narrow_alignment(f) };
    f.base & below(aligned) != 0
}

/// "TLBI: base not a multiple of 2^30 (4K, TTL 01), 2^21 (4K, 10), 2^25 (16K, 10), 2^42 (64K, 01), 2^29 (64K, 10)."
fn narrow_alignment(f: &Fields) -> u32 {
    match (f.tg, f.ttl) {
        (1, 1) => 30,
        (1, 2) => 21,
        (2, 2) => 25,
        (3, 1) => 42,
        (3, 2) => 29,
        _ => 0,
    }
}

/// "TLBIP: base not a multiple of the 128-bit span of TTL 01, 10 or 11".
fn wide_alignment(f: &Fields) -> u32 {
    if f.ttl == 0 {
        0
    } else {
        exponent(1, f.tg, f.ttl as i64).unwrap_or(0)
    }
}
