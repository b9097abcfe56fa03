//! Why a step would not be done. The library decides whether; this only finds the words, and is held against the library in tests.
use crate::faults::el2_is_enabled;
use chickadoor::{ExecuteError, Flags, Name, Operation, Share, State, Step};

/// The rule behind an answer, where there is more to say than the answer does.
pub fn of_step(state: &State, step: Step, error: ExecuteError) -> Option<String> {
    let operation = Operation::decode(step.word)?;
    match error {
        ExecuteError::Undefined => undefined(state, &operation).map(str::to_string),
        ExecuteError::Trapped(_) => trapped(state, &operation),
        ExecuteError::NoEffect => Some("EL2 is disabled".to_string()),
        ExecuteError::NoGranule if operation.rt == 31 => Some("XZR is a zero operand".to_string()),
        _ => None,
    }
}

/// Whose names these are: the rows of the access rules.
#[derive(PartialEq, Eq)]
enum Family {
    E1,
    E2,
    E3,
    Stage2,
}

fn family(name: Name) -> Family {
    match name {
        Name::Rvae1 | Name::Rvaae1 | Name::Rvale1 | Name::Rvaale1 => Family::E1,
        Name::Rvae2 | Name::Rvale2 => Family::E2,
        Name::Rvae3 | Name::Rvale3 => Family::E3,
        Name::Ripas2e1 | Name::Ripas2le1 => Family::Stage2,
    }
}

fn undefined(state: &State, operation: &Operation) -> Option<&'static str> {
    absent(state, operation).or_else(|| not_here(state, operation))
}

fn absent(state: &State, operation: &Operation) -> Option<&'static str> {
    let Operation { share, nxs, tlbip, rt, .. } = *operation;
    let features = &state.features;
    if !tlbip && !features.tlbirange {
        return Some("a TLBI of a range wants the feature TLBIRANGE");
    }
    if !tlbip && share == Share::Outer && !features.tlbios {
        return Some("a TLBI with OS wants the feature TLBIOS");
    }
    if tlbip && !features.d128 {
        return Some("a TLBIP wants the feature D128");
    }
    if nxs && !features.xs {
        return Some("NXS wants the feature XS");
    }
    (tlbip && rt % 2 == 1 && rt < 31).then_some("a TLBIP wants an even register")
}

fn not_here(state: &State, operation: &Operation) -> Option<&'static str> {
    match (state.el, family(operation.name)) {
        (0, _) => Some("at EL0 every operation is"),
        (1, Family::E2) | (1, Family::Stage2) => Some("at EL1 the E2 names and RIPAS2 are"),
        (1, Family::E3) | (2, Family::E3) => Some("below EL3 the E3 names are"),
        (3, Family::E2) if !el2_is_enabled(state) => Some("at EL3 the E2 names are while EL2 is disabled"),
        _ => None,
    }
}

fn trapped(state: &State, operation: &Operation) -> Option<String> {
    let Operation { name, share, .. } = *operation;
    let bit = match (family(name), share) {
        (Family::E2, _) | (Family::Stage2, _) if state.hcr.nv => "HCR.NV",
        (Family::E1, _) if state.hcr.ttlb => "HCR.TTLB",
        (Family::E1, Share::Inner) if state.hcr.ttlbis => "HCR.TTLBIS",
        (Family::E1, Share::Outer) if state.hcr.ttlbos => "HCR.TTLBOS",
        _ if flag(state, name, share) => return Some(format!("by the fine-grained trap of {}{}", name, share.as_str())),
        _ => return None,
    };
    Some(format!("by {}", bit))
}

fn flag(state: &State, name: Name, share: Share) -> bool {
    let flags = match name {
        Name::Rvae1 => state.traps.rvae1,
        Name::Rvaae1 => state.traps.rvaae1,
        Name::Rvale1 => state.traps.rvale1,
        Name::Rvaale1 => state.traps.rvaale1,
        _ => Flags::default(),
    };
    match share {
        Share::Local => flags.local,
        Share::Inner => flags.inner,
        Share::Outer => flags.outer,
    }
}

#[cfg(test)]
mod tests {
    use super::*;
    use crate::draw::Draw;

    #[test]
    fn a_rule_is_found_exactly_for_steps_that_are_undefined() {
        let d = &mut Draw::new(3);
        let (mut bad, mut good) = (0, 0);
        for _ in 0..40_000 {
            let (state, operation) = (d.state(), d.operation());
            let answer = d.executed(&state, &operation);
            if answer == Err(ExecuteError::BadState) {
                continue;
            }
            let refused = answer == Err(ExecuteError::Undefined);
            // At EL1, what NV traps is not UNDEFINED.
            let may = refused || matches!(answer, Err(ExecuteError::Trapped(_)));
            assert!(undefined(&state, &operation).is_some() || !refused, "{:?} {}", state, operation);
            assert!(undefined(&state, &operation).is_none() || may, "{:?} {}", state, operation);
            bad += u32::from(refused);
            good += u32::from(answer.is_ok());
        }
        assert!(bad > 1_000 && good > 1_000, "{} {}", bad, good);
    }

    #[test]
    fn a_control_is_found_for_every_step_that_is_trapped() {
        let d = &mut Draw::new(4);
        let mut traps = 0;
        for _ in 0..40_000 {
            let (state, operation) = (d.state(), d.operation());
            if let Err(ExecuteError::Trapped(_)) = d.executed(&state, &operation) {
                traps += 1;
                assert!(trapped(&state, &operation).is_some(), "{:?} {}", state, operation);
            }
        }
        assert!(traps > 1_000, "{}", traps);
    }
}
