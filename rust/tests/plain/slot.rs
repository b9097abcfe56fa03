//! The layout of a slot (docs/TAG.md): base, tag, output word. What is not exactly the tag of a legal entry reads as empty.

use super::entry::{is_legal, Company};
use super::record::Entry;

pub const WORDS: usize = 3;
pub const MOST_WORDS: usize = 6144;

const LAYOUT: u64 = 1;
/// Layout number and company: bits 25:0. A slot that differs here is of another company, or empty.
pub const COMPANY_BITS: u64 = (1 << 26) - 1;
/// The same with the granule: bits 27:0.
pub const GRANULE_BITS: u64 = (1 << 28) - 1;

/// "Shape is bad if the words aren't a multiple of three or are over 6,144".
pub fn shape_is_good(table: &[u64]) -> bool {
    table.len() % WORDS == 0 && table.len() <= MOST_WORDS
}

pub fn company_tag(c: &Company) -> u64 {
    LAYOUT | c.regime << 4 | c.security << 6 | c.vmid << 8 | c.stage2 << 24 | c.ns << 25
}

pub fn granule_tag(c: &Company, granule: u64) -> u64 {
    company_tag(c) | granule << 26
}

/// The tag of a legal entry.
pub fn tag(e: &Entry) -> u64 {
    let height = (3 - e.level) as u64;
    granule_tag(&Company::of(e), e.granule)
        | e.asid << 28
        | e.global << 44
        | e.wide << 45
        | height << 46
        | e.leaf << 49
        | e.xs << 50
        | e.processor << 51
}

/// The entry that a slot reads as, none if it reads as empty.
pub fn read(base: u64, tag: u64) -> Option<Entry> {
    if tag & 15 != LAYOUT || tag >> 54 != 0 {
        return None;
    }
    let entry = unpack(base, tag);
    if is_legal(&entry) {
        Some(entry)
    } else {
        None
    }
}

/// Every bit of 53:4 stands in one field, so a legal entry unpacked here has this very tag.
fn unpack(base: u64, tag: u64) -> Entry {
    Entry {
        processor: tag >> 51 & 7,
        regime: tag >> 4 & 3,
        security: tag >> 6 & 3,
        vmid: tag >> 8 & 0xFFFF,
        asid: tag >> 28 & 0xFFFF,
        global: tag >> 44 & 1,
        stage2: tag >> 24 & 1,
        ns: tag >> 25 & 1,
        wide: tag >> 45 & 1,
        granule: tag >> 26 & 3,
        level: 3 - (tag >> 46 & 7) as i64,
        leaf: tag >> 49 & 1,
        xs: tag >> 50 & 1,
        base,
    }
}
