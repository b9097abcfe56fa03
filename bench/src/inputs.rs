//! Numbers drawn at random, the state, entries and tables that the cases are made of.

use crate::calls::LIBRARY;
use crate::records::*;

/// TLBI RVAAE1IS, X0.
pub const RVAAE1IS: u64 = 0xD508_8260;
/// 2 MiB of 4K pages from 1 GiB on, no hint.
pub const TWO_MEBIBYTES: u64 = 1 << 46 | 1 << 44 | 7 << 39 | RANGE_FIRST >> 12;
pub const RANGE_FIRST: u64 = 0x4000_0000;
pub const RANGE_PAGES: u64 = 512;

/// Xorshift: the same numbers in every run.
pub struct Draw(u64);

impl Draw {
    pub fn new(seed: u64) -> Draw {
        Draw(seed.wrapping_mul(0x9E37_79B9_7F4A_7C15) | 1)
    }

    pub fn word(&mut self) -> u64 {
        self.0 ^= self.0 << 13;
        self.0 ^= self.0 >> 7;
        self.0 ^= self.0 << 17;
        self.0
    }

    pub fn below(&mut self, count: u64) -> u64 {
        (self.word() >> 16) % count
    }

    pub fn one_in(&mut self, count: u64) -> bool {
        self.below(count) == 0
    }
}

/// EL1 below EL2, Non-secure, VMID 7, on a board of eight processors in one domain, with every feature but LPA2 and RME.
pub fn state() -> State {
    State {
        el: 1,
        present: Present { el2: 1, el3: 0 },
        features: Features { tlbirange: 1, tlbios: 1, d128: 1, xs: 1, lpa2: 0, rme: 0, sel2: 1, fgt: 1, hcx: 1 },
        board: Board { own: 0, count: 8, inner: [0; 8], outer: [0; 8] },
        vmid: 7,
        ..State::default()
    }
}

pub fn guest(vmid: u64) -> Company {
    Company { regime: 0, security: 1, vmid, stage2: 0, ns: 0 }
}

/// A 64-bit 4K entry: mostly pages, some blocks, some tables, of eight ASIDs and eight processors.
pub fn entry(draw: &mut Draw, vmid: u64, page: u64) -> Entry {
    let (leaf, level, exponent) = match draw.below(8) {
        0 => (1, 2, 21),
        1 => (0, 2, 21),
        _ => (1, 3, 12),
    };
    Entry {
        processor: draw.below(8),
        company: guest(vmid),
        asid: draw.below(8),
        global: leaf & u64::from(draw.one_in(16)),
        wide: 0,
        granule: 1,
        level,
        leaf,
        xs: draw.below(2),
        base: page << 12 >> exponent << exponent,
    }
}

/// A page below or above the range of the executions, which is a whole block: so a block round the page does not meet it either.
pub fn page_elsewhere(draw: &mut Draw) -> u64 {
    let first = RANGE_FIRST >> 12;
    let page = draw.below(2 * first);
    if page < first {
        page
    } else {
        page + RANGE_PAGES
    }
}

pub fn page_in_range(draw: &mut Draw) -> u64 {
    (RANGE_FIRST >> 12) + draw.below(RANGE_PAGES)
}

/// A table of so many slots, all taken, in the order in which the entries come.
pub fn table(slots: usize, mut next: impl FnMut(u64) -> Entry) -> Vec<u64> {
    let mut table = vec![0; 3 * slots];
    for slot in 0..slots {
        let entry = next(slot as u64);
        let mut out = Inserted::default();
        let words = &mut table[3 * slot..];
        // SAFETY: the slot's own three words are lent as a table of one slot.
        let answer = unsafe { (LIBRARY.insert)(words.as_mut_ptr(), 3, &entry, slot as u64, &mut out) };
        assert_eq!(answer, 0, "an entry breaks a rule");
    }
    table
}
