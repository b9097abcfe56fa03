//! Instruction words: decoding, building, and their text.
use crate::raw;
use crate::table::Step;
use std::fmt;

/// The operations as Arm writes them, without shareability and nXS.
#[derive(Clone, Copy, Debug, PartialEq, Eq, Hash)]
#[allow(missing_docs)]
pub enum Name {
    Rvae1,
    Rvaae1,
    Rvale1,
    Rvaale1,
    Rvae2,
    Rvale2,
    Rvae3,
    Rvale3,
    Ripas2e1,
    Ripas2le1,
}

/// Which processors an operation reaches.
#[derive(Clone, Copy, Debug, PartialEq, Eq, Hash)]
pub enum Share {
    /// The own processor.
    Local,
    /// IS: those of the same inner shareable domain.
    Inner,
    /// OS: those of the same outer shareable domain.
    Outer,
}

/// An operation, as an instruction word names it.
#[derive(Clone, Copy, Debug, PartialEq, Eq, Hash)]
pub struct Operation {
    /// Which it is.
    pub name: Name,
    /// Whom it reaches.
    pub share: Share,
    /// nXS: entries with XS stay.
    pub nxs: bool,
    /// TLBIP, else TLBI.
    pub tlbip: bool,
    /// The register, 0 to 31.
    pub rt: u8,
}

impl Name {
    /// Every name, in the order of the header's numbers.
    pub const ALL: [Name; 10] = [
        Name::Rvae1,
        Name::Rvaae1,
        Name::Rvale1,
        Name::Rvaale1,
        Name::Rvae2,
        Name::Rvale2,
        Name::Rvae3,
        Name::Rvale3,
        Name::Ripas2e1,
        Name::Ripas2le1,
    ];

    /// The name as Arm writes it.
    pub fn as_str(self) -> &'static str {
        match self {
            Name::Rvae1 => "RVAE1",
            Name::Rvaae1 => "RVAAE1",
            Name::Rvale1 => "RVALE1",
            Name::Rvaale1 => "RVAALE1",
            Name::Rvae2 => "RVAE2",
            Name::Rvale2 => "RVALE2",
            Name::Rvae3 => "RVAE3",
            Name::Rvale3 => "RVALE3",
            Name::Ripas2e1 => "RIPAS2E1",
            Name::Ripas2le1 => "RIPAS2LE1",
        }
    }
}

impl Share {
    /// Every shareability, in the order of the header's numbers.
    pub const ALL: [Share; 3] = [Share::Local, Share::Inner, Share::Outer];

    /// What Arm writes behind the name: nothing, IS or OS.
    pub fn as_str(self) -> &'static str {
        match self {
            Share::Local => "",
            Share::Inner => "IS",
            Share::Outer => "OS",
        }
    }
}

impl Operation {
    /// The operation that an instruction word is, if it is one.
    pub fn decode(word: u64) -> Option<Self> {
        match raw::call::decode(word) {
            (0, raw) => Operation::from_raw(&raw),
            _ => None,
        }
    }

    /// The operation's instruction word, if its register is one.
    pub fn encode(&self) -> Option<u32> {
        match raw::call::build(self.into()) {
            (0, built) => built.word.try_into().ok(),
            _ => None,
        }
    }

    /// A step of this operation with these registers, if its register is one.
    pub fn step(&self, xt: u64, xt2: u64) -> Option<Step> {
        Some(Step { word: self.encode()?.into(), xt, xt2 })
    }

    fn from_raw(raw: &raw::Operation) -> Option<Self> {
        Some(Operation {
            name: *Name::ALL.get(usize::try_from(raw.name).ok()?)?,
            share: *Share::ALL.get(usize::try_from(raw.share).ok()?)?,
            nxs: raw.nxs == 1,
            tlbip: raw.tlbip == 1,
            rt: raw.rt.try_into().ok()?,
        })
    }
}

impl From<&Operation> for raw::Operation {
    fn from(operation: &Operation) -> Self {
        raw::Operation {
            name: operation.name as u64,
            share: operation.share as u64,
            nxs: operation.nxs.into(),
            tlbip: operation.tlbip.into(),
            rt: operation.rt.into(),
        }
    }
}

impl fmt::Display for Name {
    fn fmt(&self, f: &mut fmt::Formatter<'_>) -> fmt::Result {
        f.write_str(self.as_str())
    }
}

/// As in the listing: `TLBI RVAAE1IS, X0`, `TLBIP RVAE2, X30, XZR`.
impl fmt::Display for Operation {
    fn fmt(&self, f: &mut fmt::Formatter<'_>) -> fmt::Result {
        let instruction = if self.tlbip { "TLBIP" } else { "TLBI" };
        let nxs = if self.nxs { "NXS" } else { "" };
        write!(f, "{} {}{}{}, {}", instruction, self.name, self.share.as_str(), nxs, Register(self.rt))?;
        if self.tlbip {
            write!(f, ", {}", Register(self.rt.saturating_add(1)))?;
        }
        Ok(())
    }
}

/// X0 to X30; 31 and whatever lies above is XZR.
struct Register(u8);

impl fmt::Display for Register {
    fn fmt(&self, f: &mut fmt::Formatter<'_>) -> fmt::Result {
        match self.0 {
            number @ 0..=30 => write!(f, "X{}", number),
            _ => f.write_str("XZR"),
        }
    }
}
