//! Entries in words, for people.
use crate::entry::{Company, Entry, Granule, Regime, Security};
use std::fmt;

impl fmt::Display for Regime {
    fn fmt(&self, f: &mut fmt::Formatter<'_>) -> fmt::Result {
        f.write_str(match self {
            Regime::El10 => "EL1&0",
            Regime::El20 => "EL2&0",
            Regime::El2 => "EL2",
            Regime::El3 => "EL3",
        })
    }
}

impl fmt::Display for Security {
    fn fmt(&self, f: &mut fmt::Formatter<'_>) -> fmt::Result {
        f.write_str(match self {
            Security::Secure => "Secure",
            Security::NonSecure => "Non-secure",
            Security::Realm => "Realm",
            Security::Root => "Root",
        })
    }
}

impl fmt::Display for Granule {
    fn fmt(&self, f: &mut fmt::Formatter<'_>) -> fmt::Result {
        f.write_str(match self {
            Granule::K4 => "4 KiB",
            Granule::K16 => "16 KiB",
            Granule::K64 => "64 KiB",
        })
    }
}

/// As in "Non-secure EL1&0 of VMID 7" or "Secure EL1&0 of VMID 0, stage 2 (NS)".
impl fmt::Display for Company {
    fn fmt(&self, f: &mut fmt::Formatter<'_>) -> fmt::Result {
        write!(f, "{} {}", self.security, self.regime)?;
        if self.regime == Regime::El10 {
            write!(f, " of VMID {}", self.vmid)?;
        }
        match (self.stage2, self.ns) {
            (false, _) => Ok(()),
            (true, false) => f.write_str(", stage 2"),
            (true, true) => f.write_str(", stage 2 (NS)"),
        }
    }
}

/// As in "a 64-bit level 3 leaf at 0x40002000 (4 KiB granule) on processor 0, of Non-secure EL1&0 of VMID 7, ASID 0, XS 1".
impl fmt::Display for Entry {
    fn fmt(&self, f: &mut fmt::Formatter<'_>) -> fmt::Result {
        let width = if self.wide { "128" } else { "64" };
        let kind = if self.leaf { "leaf" } else { "table entry" };
        write!(f, "a {}-bit level {} {} at {:#x} ({} granule)", width, self.level, kind, self.base, self.granule)?;
        write!(f, " on processor {}, of {}", self.processor, self.company)?;
        if self.company.has_asids() {
            write!(f, ", ASID {}", self.asid)?;
        }
        if self.global {
            f.write_str(", global")?;
        }
        write!(f, ", XS {}", u8::from(self.xs))
    }
}
