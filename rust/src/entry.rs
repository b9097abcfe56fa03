//! Entries of the translation cache, and targets.
use crate::raw;

/// Translation regimes.
#[derive(Clone, Copy, Debug, PartialEq, Eq, Hash)]
pub enum Regime {
    /// EL1&0.
    El10,
    /// EL2&0.
    El20,
    /// EL2.
    El2,
    /// EL3.
    El3,
}

/// Security states.
#[derive(Clone, Copy, Debug, PartialEq, Eq, Hash)]
#[allow(missing_docs)]
pub enum Security {
    Secure,
    NonSecure,
    Realm,
    Root,
}

/// Granules of translation.
#[derive(Clone, Copy, Debug, PartialEq, Eq, Hash)]
pub enum Granule {
    /// 4 KiB.
    K4,
    /// 16 KiB.
    K16,
    /// 64 KiB.
    K64,
}

/// Whose an entry is. Stage 2 is EL1&0's; EL3 is Root or Secure, other regimes never Root; a VMID only in EL1&0; `ns` only in Secure stage 2.
#[derive(Clone, Copy, Debug, PartialEq, Eq, Hash)]
pub struct Company {
    /// The translation regime.
    pub regime: Regime,
    /// The security state.
    pub security: Security,
    /// The VMID; 0 outside EL1&0.
    pub vmid: u16,
    /// Stage 2, else stage 1.
    pub stage2: bool,
    /// The IPA space, as NS.
    pub ns: bool,
}

/// An entry of the translation cache. `include/chickadoor.h` has the rules that [`crate::Table::insert`] asks of it.
#[derive(Clone, Copy, Debug, PartialEq, Eq, Hash)]
pub struct Entry {
    /// Whose cache it is in, 0 to 7.
    pub processor: u8,
    /// Whose it is.
    pub company: Company,
    /// The ASID; 0 where there are none.
    pub asid: u16,
    /// A leaf for every ASID.
    pub global: bool,
    /// 128-bit descriptors, else 64-bit.
    pub wide: bool,
    /// The granule.
    pub granule: Granule,
    /// -1 to 2, and 1 to 3 for a leaf.
    pub level: i8,
    /// A leaf, else an entry that points to a further table.
    pub leaf: bool,
    /// The XS attribute: operations with nXS leave it.
    pub xs: bool,
    /// The first address of its span.
    pub base: u64,
}

/// The ASIDs that a target asks for: one, with global leaves, or all.
#[derive(Clone, Copy, Debug, PartialEq, Eq, Hash)]
pub enum Asids {
    /// All of them; also where there are none.
    All,
    /// This one, and global leaves.
    One(u16),
}

/// The entries that a list is to clear. `include/chickadoor.h` has the rules that [`crate::judge`] asks of it.
#[derive(Clone, Copy, Debug, PartialEq, Eq, Hash)]
pub struct Target {
    /// Whose entries.
    pub company: Company,
    /// Those of 128-bit descriptors, else of 64-bit.
    pub wide: bool,
    /// Their granule.
    pub granule: Granule,
    /// Their ASIDs.
    pub asids: Asids,
    /// Leaves only.
    pub leaves: bool,
    /// A bit for each processor, number 0 lowest.
    pub processors: u8,
    /// The first address.
    pub first: u64,
    /// The last address.
    pub last: u64,
}

impl Regime {
    pub(crate) fn number(self) -> u64 {
        match self {
            Regime::El10 => 0,
            Regime::El20 => 1,
            Regime::El2 => 2,
            Regime::El3 => 3,
        }
    }

    fn from_number(number: u64) -> Option<Self> {
        [Regime::El10, Regime::El20, Regime::El2, Regime::El3].get(usize::try_from(number).ok()?).copied()
    }
}

impl Security {
    fn number(self) -> u64 {
        match self {
            Security::Secure => 0,
            Security::NonSecure => 1,
            Security::Realm => 2,
            Security::Root => 3,
        }
    }

    fn from_number(number: u64) -> Option<Self> {
        [Security::Secure, Security::NonSecure, Security::Realm, Security::Root].get(usize::try_from(number).ok()?).copied()
    }
}

impl Granule {
    /// As TG has it.
    pub fn number(self) -> u64 {
        match self {
            Granule::K4 => 1,
            Granule::K16 => 2,
            Granule::K64 => 3,
        }
    }

    /// The granule that TG names, if it names one.
    pub fn from_number(number: u64) -> Option<Self> {
        match number {
            1 => Some(Granule::K4),
            2 => Some(Granule::K16),
            3 => Some(Granule::K64),
            _ => None,
        }
    }
}

impl From<&Company> for raw::Company {
    fn from(company: &Company) -> Self {
        raw::Company {
            regime: company.regime.number(),
            security: company.security.number(),
            vmid: company.vmid.into(),
            stage2: company.stage2.into(),
            ns: company.ns.into(),
        }
    }
}

impl Company {
    /// Whether its entries have ASIDs, and its addresses two halves: stage 1 of EL1&0 and EL2&0.
    pub fn has_asids(&self) -> bool {
        !self.stage2 && matches!(self.regime, Regime::El10 | Regime::El20)
    }

    fn from_raw(raw: &raw::Company) -> Option<Self> {
        Some(Company {
            regime: Regime::from_number(raw.regime)?,
            security: Security::from_number(raw.security)?,
            vmid: raw.vmid.try_into().ok()?,
            stage2: raw.stage2 == 1,
            ns: raw.ns == 1,
        })
    }
}

impl From<&Entry> for raw::Entry {
    fn from(entry: &Entry) -> Self {
        raw::Entry {
            processor: entry.processor.into(),
            company: (&entry.company).into(),
            asid: entry.asid.into(),
            global: entry.global.into(),
            wide: entry.wide.into(),
            granule: entry.granule.number(),
            level: entry.level.into(),
            leaf: entry.leaf.into(),
            xs: entry.xs.into(),
            base: entry.base,
        }
    }
}

impl Entry {
    /// The entry of a record that the library wrote; nothing for one that it could not have written.
    pub(crate) fn from_raw(raw: &raw::Entry) -> Option<Self> {
        Some(Entry {
            processor: raw.processor.try_into().ok()?,
            company: Company::from_raw(&raw.company)?,
            asid: raw.asid.try_into().ok()?,
            global: raw.global == 1,
            wide: raw.wide == 1,
            granule: Granule::from_number(raw.granule)?,
            level: raw.level.try_into().ok()?,
            leaf: raw.leaf == 1,
            xs: raw.xs == 1,
            base: raw.base,
        })
    }
}

impl From<&Target> for raw::Target {
    fn from(target: &Target) -> Self {
        let (one, asid) = match target.asids {
            Asids::All => (0, 0),
            Asids::One(asid) => (1, asid.into()),
        };
        raw::Target {
            company: (&target.company).into(),
            wide: target.wide.into(),
            granule: target.granule.number(),
            one,
            asid,
            leaves: target.leaves.into(),
            processors: target.processors.into(),
            first: target.first,
            last: target.last,
        }
    }
}
