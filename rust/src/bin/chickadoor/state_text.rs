//! `state: EL1, EL2 present, TLBIRANGE, SCR.NS, VMID 7, processor 0 of 4`
use crate::phrase::{each, half, number, small, Once, Phrase};
use chickadoor::{Flags, State};

const EXPECTED: &str =
    "expected EL0 to EL3; `EL2 present` or `EL3 present`; a feature (TLBIRANGE, TLBIOS, D128, XS, LPA2, RME, SEL2, FGT, HCX); \
    a register bit, as SCR.NS or HCR.E2H; `trap RVAE1IS`; `DS EL1` or `DS stage 2`; `VMID 7`; `processor 0 of 4`; \
    `inner domains 0 0 1 1` or `outer domains 0 0 0 0`";
const SCR: &str = "expected SCR.NS, SCR.NSE, SCR.EEL2, SCR.FGTEn or SCR.HXEn";
const HCR: &str = "expected HCR.E2H, HCR.TGE, HCR.TTLB, HCR.TTLBIS, HCR.TTLBOS or HCR.NV";
const HCRX: &str = "expected HCRX.FnXS or HCRX.FGTnXS";

const LEVEL: &str = "the exception level";

#[derive(Default)]
pub struct StateText {
    state: State,
    once: Once,
    inner: Option<Vec<u8>>,
    outer: Option<Vec<u8>>,
}

impl StateText {
    /// Takes in the phrases of a line.
    pub fn add(&mut self, text: &str) -> Result<(), String> {
        each(text, |phrase| {
            let what = self.set(phrase)?;
            self.once.told(&what, phrase)
        })
    }

    pub fn finish(mut self) -> Result<State, String> {
        if !self.once.has(LEVEL) {
            return Err("the state does not say the exception level: EL0, EL1, EL2 or EL3".to_string());
        }
        let board = &mut self.state.board;
        place_domains("inner", self.inner, board.count, &mut board.inner)?;
        place_domains("outer", self.outer, board.count, &mut board.outer)?;
        Ok(self.state)
    }

    /// Takes a phrase in, and says what it is about.
    fn set(&mut self, phrase: &Phrase) -> Result<String, String> {
        let state = &mut self.state;
        let what = match phrase.words().as_slice() {
            [level] if level.len() == 3 && level.starts_with("el") => {
                state.el = level[2..].parse().ok().filter(|level| *level <= 3).ok_or_else(|| found("expected EL0 to EL3", phrase.text))?;
                LEVEL
            }
            ["vmid", value] => {
                state.vmid = half(value)?;
                "the VMID"
            }
            ["processor", own, "of", count] => {
                state.board.own = small(own, u8::MAX)?;
                state.board.count = small(count, u8::MAX)?;
                "the processor"
            }
            ["inner", "domains", numbers @ ..] => {
                self.inner = Some(domains(numbers)?);
                "the inner domains"
            }
            ["outer", "domains", numbers @ ..] => {
                self.outer = Some(domains(numbers)?);
                "the outer domains"
            }
            words => return flag(state, words, phrase.text),
        };
        Ok(what.to_string())
    }
}

fn domains(words: &[&str]) -> Result<Vec<u8>, String> {
    words.iter().map(|word| small(word, u8::MAX)).collect()
}

/// Puts the domains that were told, one for each processor, into their places.
fn place_domains(which: &str, told: Option<Vec<u8>>, count: u8, places: &mut [u8; 8]) -> Result<(), String> {
    let numbers = match told {
        Some(numbers) => numbers,
        None => return Ok(()),
    };
    if numbers.len() != usize::from(count) {
        let processors = if count == 1 { "processor" } else { "processors" };
        return Err(format!("expected the {} domains of {} {}, and found {}", which, count, processors, numbers.len()));
    }
    places.iter_mut().zip(numbers).for_each(|(place, number)| *place = number);
    Ok(())
}

/// Sets a flag, which is 1 where it is told unless something behind it says otherwise, and gives its short name.
fn flag(state: &mut State, words: &[&str], text: &str) -> Result<String, String> {
    let (name, value) = match words {
        [name @ .., "present"] | [name @ .., "1"] => (name, true),
        [name @ .., "absent"] | [name @ .., "0"] => (name, false),
        [name @ .., last] if !name.is_empty() && number(last).is_ok() && *name != ["ds", "stage"] => {
            return Err(found("expected 0 or 1 behind a bit or a feature", text));
        }
        name => (name, true),
    };
    *place(state, name, text)? = value;
    let short = name.join(" ").replace("feat_", "").replace("_el2.", ".").replace("_el3.", ".");
    Ok(format!("`{}`", short))
}

fn place<'a>(state: &'a mut State, name: &[&str], text: &str) -> Result<&'a mut bool, String> {
    match name {
        ["el2"] => Ok(&mut state.present.el2),
        ["el3"] => Ok(&mut state.present.el3),
        ["trap", name] => trap(state, name, text),
        ["ds", "el1"] => Ok(&mut state.ds.el1),
        ["ds", "el2"] => Ok(&mut state.ds.el2),
        ["ds", "el3"] => Ok(&mut state.ds.el3),
        ["ds", "stage", "2"] => Ok(&mut state.ds.stage2),
        [word] => match word.split_once('.') {
            Some(("scr", bit)) | Some(("scr_el3", bit)) => scr(state, bit).ok_or(SCR),
            Some(("hcr", bit)) | Some(("hcr_el2", bit)) => hcr(state, bit).ok_or(HCR),
            Some(("hcrx", bit)) | Some(("hcrx_el2", bit)) => hcrx(state, bit).ok_or(HCRX),
            _ => feature(state, word.strip_prefix("feat_").unwrap_or(word)).ok_or(EXPECTED),
        }
        .map_err(|expected| found(expected, text)),
        _ => Err(found(EXPECTED, text)),
    }
}

fn found(expected: &str, text: &str) -> String {
    format!("{}, and found `{}`", expected, text)
}

fn feature<'a>(state: &'a mut State, word: &str) -> Option<&'a mut bool> {
    let features = &mut state.features;
    match word {
        "tlbirange" => Some(&mut features.tlbirange),
        "tlbios" => Some(&mut features.tlbios),
        "d128" => Some(&mut features.d128),
        "xs" => Some(&mut features.xs),
        "lpa2" => Some(&mut features.lpa2),
        "rme" => Some(&mut features.rme),
        "sel2" => Some(&mut features.sel2),
        "fgt" => Some(&mut features.fgt),
        "hcx" => Some(&mut features.hcx),
        _ => None,
    }
}

fn scr<'a>(state: &'a mut State, bit: &str) -> Option<&'a mut bool> {
    match bit {
        "ns" => Some(&mut state.scr.ns),
        "nse" => Some(&mut state.scr.nse),
        "eel2" => Some(&mut state.scr.eel2),
        "fgten" => Some(&mut state.scr.fgten),
        "hxen" => Some(&mut state.scr.hxen),
        _ => None,
    }
}

fn hcr<'a>(state: &'a mut State, bit: &str) -> Option<&'a mut bool> {
    match bit {
        "e2h" => Some(&mut state.hcr.e2h),
        "tge" => Some(&mut state.hcr.tge),
        "ttlb" => Some(&mut state.hcr.ttlb),
        "ttlbis" => Some(&mut state.hcr.ttlbis),
        "ttlbos" => Some(&mut state.hcr.ttlbos),
        "nv" => Some(&mut state.hcr.nv),
        _ => None,
    }
}

fn hcrx<'a>(state: &'a mut State, bit: &str) -> Option<&'a mut bool> {
    match bit {
        "fnxs" => Some(&mut state.hcrx.fnxs),
        "fgtnxs" => Some(&mut state.hcrx.fgtnxs),
        _ => None,
    }
}

fn trap<'a>(state: &'a mut State, name: &str, text: &str) -> Result<&'a mut bool, String> {
    let (plain, share) = match (name.strip_suffix("is"), name.strip_suffix("os")) {
        (Some(plain), _) => (plain, "is"),
        (_, Some(plain)) => (plain, "os"),
        _ => (name, ""),
    };
    let flags: &mut Flags = match plain {
        "rvae1" => &mut state.traps.rvae1,
        "rvaae1" => &mut state.traps.rvaae1,
        "rvale1" => &mut state.traps.rvale1,
        "rvaale1" => &mut state.traps.rvaale1,
        _ => return Err(found("expected RVAE1, RVAAE1, RVALE1 or RVAALE1 behind `trap`, plain or with IS or OS", text)),
    };
    Ok(match share {
        "is" => &mut flags.inner,
        "os" => &mut flags.outer,
        _ => &mut flags.local,
    })
}
