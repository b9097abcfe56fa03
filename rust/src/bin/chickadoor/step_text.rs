//! `TLBI RVAAE1IS, 0x0000400000040000`, or a line of a listing, `8 TLBI RVALE3OS, X0`, with the registers told before.
use crate::phrase::number;
use chickadoor::{Name, Operation, Share, Step};

const EXPECTED: &str = "expected a step, as `TLBI RVAAE1IS, 0x0000400000040000`, `TLBIP RVAE2, VALUE, VALUE` or `8 TLBI RVALE3OS, X0`; \
    `X0 = VALUE`; `state: ...`; or `target: ...`";

/// The registers that the text has told so far.
#[derive(Default)]
pub struct Registers([Option<u64>; 31]);

impl Registers {
    /// `X0 = VALUE`
    pub fn set(&mut self, line: &str) -> Result<(), String> {
        let (register, value) = line.split_once('=').ok_or_else(|| found(line))?;
        match register_number(register.trim()) {
            Some(place) if place < 31 => {
                self.0[usize::from(place)] = Some(number(value.trim())?);
                Ok(())
            }
            _ => Err(format!("expected X0 to X30 before `=`, and found `{}`", register.trim())),
        }
    }

    /// What a register holds; XZR is 0.
    fn get(&self, place: u8) -> Result<u64, String> {
        match self.0.get(usize::from(place)) {
            None => Ok(0),
            Some(Some(value)) => Ok(*value),
            Some(None) => Err(format!("X{0} has no value: expected `X{0} = VALUE` in a line before", place)),
        }
    }
}

/// `tail 1`, the last line of a listing.
pub fn is_tail(line: &str) -> bool {
    matches!(line.split_whitespace().collect::<Vec<_>>().as_slice(), ["tail", "1" | "2" | "3"])
}

pub fn parse(line: &str, registers: &Registers) -> Result<Step, String> {
    let (tlbip, rest) = instruction(line).ok_or_else(|| found(line))?;
    let mut parts = rest.split(',').map(str::trim);
    let (name, share, nxs) = operation(parts.next().unwrap_or(""))?;
    let (rt, xt, xt2) = values(&parts.collect::<Vec<_>>(), tlbip, registers)?;
    Operation { name, share, nxs, tlbip, rt }.step(xt, xt2).ok_or_else(|| found(line))
}

fn found(line: &str) -> String {
    format!("{}, and found `{}`", EXPECTED, line)
}

/// Whether a line is a TLBIP, and what stands behind; nothing if it is neither that nor a TLBI. An offset may stand before.
fn instruction(line: &str) -> Option<(bool, &str)> {
    let (first, rest) = line.split_once(char::is_whitespace)?;
    if first.chars().all(|digit| digit.is_ascii_digit()) {
        return instruction(rest.trim_start()).filter(|_| !rest.trim_start().starts_with(|digit: char| digit.is_ascii_digit()));
    }
    match first.to_ascii_uppercase().as_str() {
        "TLBI" => Some((false, rest)),
        "TLBIP" => Some((true, rest)),
        _ => None,
    }
}

fn operation(text: &str) -> Result<(Name, Share, bool), String> {
    if let Some((name, _)) = text.split_once(char::is_whitespace) {
        return Err(format!("expected a comma behind `{}`", name));
    }
    let upper = text.to_ascii_uppercase();
    let (plain, nxs) = upper.strip_suffix("NXS").map_or((upper.as_str(), false), |plain| (plain, true));
    let (plain, share) = match (plain.strip_suffix("IS"), plain.strip_suffix("OS")) {
        (Some(plain), _) => (plain, Share::Inner),
        (_, Some(plain)) => (plain, Share::Outer),
        _ => (plain, Share::Local),
    };
    match Name::ALL.iter().find(|name| name.as_str() == plain) {
        Some(name) => Ok((*name, share, nxs)),
        None => Err(format!("expected {}, plain or with IS or OS, and NXS behind, and found `{}`", names(), text)),
    }
}

fn names() -> String {
    Name::ALL.map(Name::as_str).join(", ")
}

/// 0 to 30 for X0 to X30, 31 for XZR.
fn register_number(word: &str) -> Option<u8> {
    if word.eq_ignore_ascii_case("xzr") {
        return Some(31);
    }
    let digits = word.strip_prefix('X').or_else(|| word.strip_prefix('x'))?;
    let all_digits = digits.chars().all(|digit| digit.is_ascii_digit());
    digits.parse().ok().filter(|place| all_digits && *place < 31)
}

/// The register of a step, and what it and the next hold. A value stands for X0, and a second one for X1.
fn values(operands: &[&str], tlbip: bool, registers: &Registers) -> Result<(u8, u64, u64), String> {
    match (operands, tlbip) {
        ([one], false) => match register_number(one) {
            Some(place) => Ok((place, registers.get(place)?, 0)),
            None => Ok((0, value(one)?, 0)),
        },
        ([one, two], true) => match (register_number(one), register_number(two)) {
            (Some(place), Some(next)) if next == place + 1 || (place, next) == (31, 31) => {
                Ok((place, registers.get(place)?, registers.get(next)?))
            }
            (None, None) => Ok((0, value(one)?, value(two)?)),
            _ => Err(format!("expected two values, or a register and the next, and found `{}, {}`", one, two)),
        },
        (_, false) => Err(format!("expected one value or register behind the name of a TLBI, and found {}", operands.len())),
        (_, true) => Err(format!("expected two values or registers behind the name of a TLBIP, and found {}", operands.len())),
    }
}

fn value(word: &str) -> Result<u64, String> {
    number(word).map_err(|_| format!("expected X0 to X30, XZR, or a number below 2^64, as 0x0000400000040000, and found `{}`", word))
}
