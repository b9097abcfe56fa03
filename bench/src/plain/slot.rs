//! A slot's tag (docs/TAG.md), and which slots hold an entry.

use super::state::{EL10, EL20, EL3, ROOT, SECURE};
use crate::records::{Company, Entry};

const LAYOUT: u64 = 1;
/// Layout number and company.
pub const COMPANY_BITS: u64 = (1 << 26) - 1;
/// The same with the granule.
pub const KEY_BITS: u64 = (1 << 28) - 1;

/// Span exponents by granule and by width and height, as they stand side by side in a tag: width lowest. 0 where there is none.
static EXPONENTS: [[u8; 16]; 4] = [
    [0; 16],
    [12, 12, 21, 20, 30, 28, 39, 36, 48, 44, 0, 0, 0, 0, 0, 0],
    [14, 14, 25, 24, 36, 34, 47, 44, 0, 54, 0, 0, 0, 0, 0, 0],
    [16, 16, 29, 28, 42, 40, 0, 52, 0, 0, 0, 0, 0, 0, 0, 0],
];

/// The exponent of a granule (0 to 3), a width and a height (0 to 7).
pub fn exponent(wide: bool, granule: u64, height: u64) -> u8 {
    EXPONENTS[granule as usize & 3][(height << 1 | u64::from(wide)) as usize & 15]
}

/// The exponent of the span of what stands in a tag.
pub fn exponent_at(tag: u64) -> u8 {
    EXPONENTS[granule(tag) as usize][(tag >> 45 & 15) as usize]
}

pub fn company_tag(c: &Company) -> u64 {
    LAYOUT | c.regime << 4 | c.security << 6 | c.vmid << 8 | c.stage2 << 24 | c.ns << 25
}

/// The tag of a legal entry.
pub fn tag_of(e: &Entry) -> u64 {
    company_tag(&e.company)
        | e.granule << 26
        | e.asid << 28
        | e.global << 44
        | e.wide << 45
        | ((3 - e.level) as u64) << 46
        | e.leaf << 49
        | e.xs << 50
        | e.processor << 51
}

pub fn entry_of(base: u64, tag: u64) -> Entry {
    Entry {
        processor: processor(tag),
        company: Company {
            regime: tag >> 4 & 3,
            security: tag >> 6 & 3,
            vmid: tag >> 8 & 0xFFFF,
            stage2: tag >> 24 & 1,
            ns: tag >> 25 & 1,
        },
        asid: asid(tag),
        global: u64::from(is_global(tag)),
        wide: u64::from(is_wide(tag)),
        granule: granule(tag),
        level: 3 - height(tag) as i64,
        leaf: u64::from(is_leaf(tag)),
        xs: u64::from(has_xs(tag)),
        base,
    }
}

pub fn granule(tag: u64) -> u64 {
    tag >> 26 & 3
}

pub fn asid(tag: u64) -> u64 {
    tag >> 28 & 0xFFFF
}

pub fn is_global(tag: u64) -> bool {
    tag >> 44 & 1 == 1
}

pub fn is_wide(tag: u64) -> bool {
    tag >> 45 & 1 == 1
}

pub fn height(tag: u64) -> u64 {
    tag >> 46 & 7
}

pub fn is_leaf(tag: u64) -> bool {
    tag >> 49 & 1 == 1
}

pub fn has_xs(tag: u64) -> bool {
    tag >> 50 & 1 == 1
}

pub fn processor(tag: u64) -> u64 {
    tag >> 51 & 7
}

/// Whether a slot holds an entry: every other is empty.
pub fn is_entry(base: u64, tag: u64) -> bool {
    tag & 15 == LAYOUT && tag >> 54 == 0 && is_legal(base, tag)
}

/// The rules of an entry, read off its tag.
pub fn is_legal(base: u64, tag: u64) -> bool {
    let exponent = exponent_at(tag);
    exponent != 0 && base & ((1 << exponent) - 1) == 0 && is_placed(tag) && is_company(tag) && is_in_reach(base, tag)
}

fn is_placed(tag: u64) -> bool {
    if is_leaf(tag) {
        height(tag) <= 2
    } else {
        height(tag) >= 1 && !is_global(tag)
    }
}

/// A company that an entry can have.
pub fn is_company(tag: u64) -> bool {
    let (regime, security, stage2, ns) = (tag >> 4 & 3, tag >> 6 & 3, tag >> 24 & 1, tag >> 25 & 1);
    let security_fits = if regime == EL3 { security == ROOT || security == SECURE } else { security != ROOT };
    // Outside EL1&0 the VMID and the stage, which stand side by side, are 0.
    security_fits && (regime == EL10 || tag >> 8 & 0x1_FFFF == 0) && (ns == 0 || (stage2 == 1 && security == SECURE))
}

/// Stage 1 of EL1&0 and EL2&0.
pub fn has_two_ranges(tag: u64) -> bool {
    matches!(tag >> 4 & 3, EL10 | EL20) && tag >> 24 & 1 == 0
}

/// The address is in reach of the company, which has an ASID or none.
fn is_in_reach(base: u64, tag: u64) -> bool {
    if has_two_ranges(tag) {
        is_address(true, base)
    } else {
        // ASID and global, which stand side by side, are 0.
        is_address(false, base) && tag >> 28 & 0x1_FFFF == 0
    }
}

pub fn is_address(two_ranges: bool, address: u64) -> bool {
    if two_ranges {
        // Bits 63:55 are all 0 or all 1.
        matches!(address as i64 >> 55, 0 | -1)
    } else {
        address >> 56 == 0
    }
}
