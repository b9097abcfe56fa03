//! Why a state cannot be, and which rule a target breaks. The library decides whether; this only finds the words, and is held against the library in tests.
use chickadoor::{Asids, Board, Company, Regime, Security, State, Target};

pub fn of_state(state: &State) -> Option<String> {
    of_level(state).or_else(|| of_rme(state)).or_else(|| of_board(&state.board))
}

fn of_level(state: &State) -> Option<String> {
    match state.el {
        0 | 1 => None,
        2 if !state.present.el2 => Some("it is at EL2, and EL2 is not present".to_string()),
        2 if !el2_is_enabled(state) => {
            Some("it is at EL2, and EL2 is disabled: the state is Secure, and SEL2 and SCR.EEL2 are not both 1".to_string())
        }
        3 if !state.present.el3 => Some("it is at EL3, and EL3 is not present".to_string()),
        2 | 3 => None,
        other => Some(format!("there is no EL{}", other)),
    }
}

fn of_rme(state: &State) -> Option<String> {
    if !state.features.rme {
        return None;
    }
    if !state.present.el3 {
        return Some("RME is there without EL3".to_string());
    }
    (state.scr.nse && !state.scr.ns).then(|| "RME is there, and SCR.NSE is 1 while SCR.NS is 0".to_string())
}

fn of_board(board: &Board) -> Option<String> {
    if !(1..=8).contains(&board.count) {
        return Some(format!("a board has 1 to 8 processors, and this one {}", board.count));
    }
    if board.own >= board.count {
        return Some(format!("there is no processor {} of {}: the first is 0", board.own, board.count));
    }
    let count = usize::from(board.count);
    for second in 0..count {
        for first in 0..second {
            if board.inner[first] == board.inner[second] && board.outer[first] != board.outer[second] {
                return Some(format!(
                    "processors {} and {} are in one inner domain, {}, and in two outer domains, {} and {}",
                    first, second, board.inner[first], board.outer[first], board.outer[second]
                ));
            }
        }
    }
    None
}

/// With EL3 the state is Secure unless SCR_EL3 says otherwise.
pub fn el2_is_enabled(state: &State) -> bool {
    let realm = state.features.rme && state.scr.nse;
    let secure = state.present.el3 && !state.scr.ns && !realm;
    state.present.el2 && (!secure || (state.features.sel2 && state.scr.eel2))
}

pub fn of_target(board: &Board, target: &Target) -> Option<String> {
    of_company(&target.company)
        .or_else(|| of_asids(target))
        .or_else(|| of_processors(board, target.processors))
        .or_else(|| of_addresses(target))
}

fn of_company(company: &Company) -> Option<String> {
    let el10 = company.regime == Regime::El10;
    let rule = match (company.regime, company.security) {
        (Regime::El3, Security::NonSecure) | (Regime::El3, Security::Realm) => "EL3 is Root or Secure",
        (Regime::El10, Security::Root) | (Regime::El20, Security::Root) | (Regime::El2, Security::Root) => "only EL3 is Root",
        _ if company.stage2 && !el10 => "only EL1&0 has a stage 2",
        _ if company.vmid != 0 && !el10 => "only EL1&0 has VMIDs",
        (_, security) if company.ns && !(company.stage2 && security == Security::Secure) => "only Secure stage 2 has an NS space",
        _ => return None,
    };
    Some(rule.to_string())
}

fn of_asids(target: &Target) -> Option<String> {
    let without = !target.company.has_asids() && target.asids != Asids::All;
    without.then(|| "EL2, EL3 and stage 2 have no ASIDs, and it asks for one".to_string())
}

fn of_processors(board: &Board, processors: u8) -> Option<String> {
    if processors == 0 {
        return Some("it names no processor".to_string());
    }
    let absent = (board.count..8).find(|number| processors >> number & 1 == 1)?;
    Some(format!("it names processor {}, and the board has {}", absent, board.count))
}

fn of_addresses(target: &Target) -> Option<String> {
    let Target { first, last, .. } = *target;
    if first > last {
        return Some(format!("its first address, {:#x}, is above its last, {:#x}", first, last));
    }
    let ends = [first, last];
    if !target.company.has_asids() {
        let address = ends.iter().find(|address| **address >> 56 != 0)?;
        return Some(format!("{:#x} is not below 2^56, as addresses of EL2, EL3 and stage 2 are", address));
    }
    let outside = ends.iter().find(|address| !matches!(**address >> 55, 0 | 0x1ff));
    let between = || Some(format!("{:#x} is in neither half: its bits 63:55 are not equal", outside?));
    between()
        .or_else(|| (first >> 63 != last >> 63).then(|| "its first address is in the lower half and its last in the upper".to_string()))
}

#[cfg(test)]
mod tests {
    use super::*;
    use crate::draw::Draw;
    use chickadoor::{judge, JudgeError, RunError, Table};

    #[test]
    fn a_fault_is_found_exactly_for_states_that_cannot_be() {
        let d = &mut Draw::new(1);
        let mut bad = 0;
        for _ in 0..20_000 {
            let state = d.state();
            let refused = Table::new(&mut []).run(&state, &[]) == Err(RunError::BadState);
            assert_eq!(of_state(&state).is_some(), refused, "{:?}", state);
            bad += u32::from(refused);
        }
        assert!((1_000..19_000).contains(&bad), "{}", bad);
    }

    #[test]
    fn a_fault_is_found_exactly_for_targets_that_break_a_rule() {
        let d = &mut Draw::new(2);
        let mut bad = 0;
        for _ in 0..20_000 {
            let target = d.target();
            let mut state = State::default();
            state.board.count = 1 + d.below(8) as u8;
            let refused = judge(&state, &target, &[]) == Err(JudgeError::BadTarget);
            assert_eq!(of_target(&state.board, &target).is_some(), refused, "{:?} {:?}", state.board, target);
            bad += u32::from(refused);
        }
        assert!((1_000..19_000).contains(&bad), "{}", bad);
    }
}
