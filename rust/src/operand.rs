//! Operands: reading and writing the words Xt and Xt2.
use crate::entry::Granule;
use crate::raw;
use std::fmt;

/// What an operand holds, by the operation and its regime.
#[derive(Clone, Copy, Debug, PartialEq, Eq, Hash)]
pub enum Form {
    /// Stage 1 of EL1&0 and EL2&0 with an ASID: RVAE1, RVALE1, and E2 names under EL2&0.
    TwoRangesAsid,
    /// The same without one: RVAAE1, RVAALE1.
    TwoRanges,
    /// EL2 and EL3.
    OneRange,
    /// RIPAS2 in the Secure state, with NS.
    Stage2Ns,
    /// RIPAS2 otherwise.
    Stage2,
}

/// What the reader and the writer are told.
#[derive(Clone, Copy, Debug, PartialEq, Eq, Hash)]
pub struct Told {
    /// TLBIP, else TLBI.
    pub tlbip: bool,
    /// What the operand holds.
    pub form: Form,
    /// LPA2 is there.
    pub lpa2: bool,
    /// A TLBI base is in units of 64 KiB: LPA2 and the regime's DS.
    pub unit64k: bool,
}

/// An operand by its fields.
#[derive(Clone, Copy, Debug, PartialEq, Eq, Hash)]
pub struct Operand {
    /// The ASID; 0 where the form has none.
    pub asid: u16,
    /// NS; false where the form has none.
    pub ns: bool,
    /// The granule, TG.
    pub granule: Granule,
    /// SCALE, 0 to 3.
    pub scale: u8,
    /// NUM, 0 to 31: the range has (NUM + 1) * 2^(5 * SCALE + 1) granules.
    pub num: u8,
    /// TTL: 0 any level, 1 to 3 that level; 1 with 16 KiB and no LPA2 is read as 0 and not written.
    pub ttl: u8,
    /// The first address of the range.
    pub base: u64,
}

/// Why an operand was not read: TG is 00.
#[derive(Clone, Copy, Debug, PartialEq, Eq)]
pub struct NoGranule;

/// Why an operand was not written: a field does not fit or is one that the form lacks, the hint reads as none, or the base cannot be shown.
#[derive(Clone, Copy, Debug, PartialEq, Eq)]
pub struct BreaksRule;

impl Told {
    /// The operand that the words Xt and Xt2 hold; Xt2 is read for TLBIP only.
    pub fn read(&self, xt: u64, xt2: u64) -> Result<Operand, NoGranule> {
        match raw::call::read_operand(self.into(), xt, xt2) {
            (0, fields) => Operand::from_raw(&fields).ok_or(NoGranule),
            _ => Err(NoGranule),
        }
    }

    /// The words Xt and Xt2; reading them gives the same operand.
    pub fn write(&self, operand: &Operand) -> Result<(u64, u64), BreaksRule> {
        match raw::call::write_operand(self.into(), operand.into()) {
            (0, words) => Ok((words.xt, words.xt2)),
            _ => Err(BreaksRule),
        }
    }
}

impl Operand {
    fn from_raw(raw: &raw::Fields) -> Option<Self> {
        Some(Operand {
            asid: raw.asid.try_into().ok()?,
            ns: raw.ns == 1,
            granule: Granule::from_number(raw.tg)?,
            scale: raw.scale.try_into().ok()?,
            num: raw.num.try_into().ok()?,
            ttl: raw.ttl.try_into().ok()?,
            base: raw.base,
        })
    }
}

impl From<&Told> for raw::Told {
    fn from(told: &Told) -> Self {
        raw::Told { tlbip: told.tlbip.into(), form: told.form as u64, lpa2: told.lpa2.into(), unit64k: told.unit64k.into() }
    }
}

impl From<&Operand> for raw::Fields {
    fn from(operand: &Operand) -> Self {
        raw::Fields {
            asid: operand.asid.into(),
            ns: operand.ns.into(),
            tg: operand.granule.number(),
            scale: operand.scale.into(),
            num: operand.num.into(),
            ttl: operand.ttl.into(),
            base: operand.base,
        }
    }
}

impl fmt::Display for NoGranule {
    fn fmt(&self, f: &mut fmt::Formatter<'_>) -> fmt::Result {
        f.write_str("the operand names no granule (TG is 00)")
    }
}

impl fmt::Display for BreaksRule {
    fn fmt(&self, f: &mut fmt::Formatter<'_>) -> fmt::Result {
        f.write_str("a field or the base cannot be written")
    }
}

impl std::error::Error for NoGranule {}
impl std::error::Error for BreaksRule {}
