//! `target: Non-secure EL1&0, VMID 7, 4K, all ASIDs, processors 0 1 2 3, 0x40000000 to 0x40003fff`
use crate::phrase::{each, half, number, small, Once, Phrase};
use chickadoor::{Asids, Board, Company, Granule, Regime, Security, Target};

const EXPECTED: &str = "expected Secure, Non-secure, Realm or Root with EL1&0, EL2&0, EL2 or EL3; `VMID 7`; `stage 2`; `NS space`; 64-bit or 128-bit; \
    4K, 16K or 64K; `ASID 5` or `all ASIDs`; `leaves only` or `all levels`; `processors 0 1` or `all processors`; or `0x40000000 to 0x40003fff`";

#[derive(Default)]
pub struct TargetText {
    once: Once,
    whose: Option<(Security, Regime)>,
    vmid: u16,
    stage2: bool,
    ns: bool,
    wide: bool,
    granule: Option<Granule>,
    asid: Option<u16>,
    leaves: bool,
    processors: Option<Processors>,
    addresses: Option<(u64, u64)>,
}

enum Processors {
    All,
    Some(u8),
}

impl TargetText {
    /// Takes in the phrases of a line.
    pub fn add(&mut self, text: &str) -> Result<(), String> {
        each(text, |phrase| {
            let what = self.set(phrase)?;
            self.once.told(what, phrase)
        })
    }

    /// Takes a phrase in, and says what it is about.
    fn set(&mut self, phrase: &Phrase) -> Result<&'static str, String> {
        match phrase.words().as_slice() {
            [security, regime] if security_of(security).is_some() && regime_of(regime).is_some() => {
                self.whose = security_of(security).zip(regime_of(regime));
                Ok("whose the entries are")
            }
            ["vmid", value] => {
                self.vmid = half(value)?;
                Ok("the VMID")
            }
            ["stage", stage @ ("1" | "2")] => {
                self.stage2 = *stage == "2";
                Ok("the stage")
            }
            ["ns", "space"] => {
                self.ns = true;
                Ok("the space")
            }
            [width @ ("64-bit" | "128-bit")] => {
                self.wide = *width == "128-bit";
                Ok("the width")
            }
            [granule] if granule_of(granule).is_some() => {
                self.granule = granule_of(granule);
                Ok("the granule")
            }
            ["leaves", "only"] | ["all", "levels"] => {
                self.leaves = phrase.words() == ["leaves", "only"];
                Ok("which levels")
            }
            ["all", "asids"] => Ok("the ASID"),
            ["asid", value] => {
                self.asid = Some(half(value)?);
                Ok("the ASID")
            }
            ["all", "processors"] => {
                self.processors = Some(Processors::All);
                Ok("which processors")
            }
            ["processor", numbers @ ..] | ["processors", numbers @ ..] => {
                self.processors = Some(Processors::Some(set(numbers)?));
                Ok("which processors")
            }
            [first, "to", last] => {
                self.addresses = Some((address(first, phrase)?, address(last, phrase)?));
                Ok("the addresses")
            }
            words if words.contains(&"to") => Err(no_addresses(phrase)),
            _ => Err(format!("{}, and found `{}`", EXPECTED, phrase.text)),
        }
    }

    /// The target on this board, if the text has told all that must be told.
    pub fn finish(self, board: &Board) -> Result<Target, String> {
        let missing = |what: &str| format!("the target does not say {}", what);
        let (security, regime) = self.whose.ok_or_else(|| missing("whose entries, as `Non-secure EL1&0`"))?;
        let granule = self.granule.ok_or_else(|| missing("its granule: 4K, 16K or 64K"))?;
        let (first, last) = self.addresses.ok_or_else(|| missing("from which address to which, as `0x40000000 to 0x40003fff`"))?;
        let processors = self.processors.ok_or_else(|| missing("on which processors, as `processors 0 1` or `all processors`"))?;
        Ok(Target {
            company: Company { regime, security, vmid: self.vmid, stage2: self.stage2, ns: self.ns },
            wide: self.wide,
            granule,
            asids: self.asid.map_or(Asids::All, Asids::One),
            leaves: self.leaves,
            processors: match processors {
                Processors::All => (0..board.count.min(8)).fold(0, |set, number| set | 1 << number),
                Processors::Some(set) => set,
            },
            first,
            last,
        })
    }
}

fn address(word: &str, phrase: &Phrase) -> Result<u64, String> {
    number(word).map_err(|_| no_addresses(phrase))
}

fn no_addresses(phrase: &Phrase) -> String {
    format!("expected a first and a last address below 2^64, as `0x40000000 to 0x40003fff`, and found `{}`", phrase.text)
}

fn set(words: &[&str]) -> Result<u8, String> {
    if words.is_empty() {
        return Err("expected the numbers of processors, as `processors 0 1`".to_string());
    }
    words.iter().try_fold(0, |set, word| Ok(set | 1 << small(word, 7)?))
}

fn granule_of(word: &str) -> Option<Granule> {
    match word {
        "4k" => Some(Granule::K4),
        "16k" => Some(Granule::K16),
        "64k" => Some(Granule::K64),
        _ => None,
    }
}

fn security_of(word: &str) -> Option<Security> {
    match word {
        "secure" => Some(Security::Secure),
        "non-secure" => Some(Security::NonSecure),
        "realm" => Some(Security::Realm),
        "root" => Some(Security::Root),
        _ => None,
    }
}

fn regime_of(word: &str) -> Option<Regime> {
    match word {
        "el1&0" => Some(Regime::El10),
        "el2&0" => Some(Regime::El20),
        "el2" => Some(Regime::El2),
        "el3" => Some(Regime::El3),
        _ => None,
    }
}
