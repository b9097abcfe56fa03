//! Judging a list: the target's rules, the steps' answers and companies, and the search for the first entry that survives.

use super::answer;
use super::entry::Company;
use super::execute::{effects, list_shape_is_good};
use super::goes::Effect;
use super::record::{Entry, Judged, State, Target};
use super::span::{below, exponent};
use super::state::is_good;

/// "non-leaf levels rising, then leaf levels rising": leaf or not, and the level.
const KINDS: [(u64, i64); 7] = [(0, -1), (0, 0), (0, 1), (0, 2), (1, 1), (1, 2), (1, 3)];

pub fn judge(state: &State, target: &Target, list: &[u64]) -> (u32, Judged) {
    if !list_shape_is_good(list) {
        return (answer::BAD_SHAPE, Judged::default());
    }
    if !is_good(state) {
        return (answer::BAD_STATE, Judged::default());
    }
    if !target_is_legal(state, target) {
        return (answer::BREAKS_A_RULE, Judged::default());
    }
    let effects = match effects(state, list) {
        Ok(effects) => effects,
        Err(step) => return (answer::STEP_REFUSED, Judged { step, survivor: Entry::default() }),
    };
    let company = company_of(target);
    if let Some(step) = effects.iter().position(|effect| effect.company != company) {
        return (answer::STEP_OUTSIDE, Judged { step: step as u64, survivor: Entry::default() });
    }
    match first_gap(target, &effects) {
        Some(survivor) => (answer::GAP, Judged { step: 0, survivor }),
        None => (answer::DONE, Judged::default()),
    }
}

fn company_of(t: &Target) -> Company {
    Company { regime: t.regime, security: t.security, vmid: t.vmid, stage2: t.stage2, ns: t.ns }
}

fn target_is_legal(state: &State, t: &Target) -> bool {
    let company = company_of(t);
    let fits = t.wide <= 1 && (1..=3).contains(&t.granule) && t.one <= 1 && t.asid <= 0xFFFF && t.leaves <= 1;
    // "one ASID or all ("all" in EL2, EL3 and stage 2)".
    let asid_is_legal = t.one == 0 || company.has_two_ranges();
    // "a non-empty set of existing processors".
    let set_is_legal = t.processors != 0 && t.processors >> state.count == 0;
    fits && company.is_legal() && asid_is_legal && set_is_legal && addresses_are_legal(&company, t)
}

/// "first not above last, both in one legal half (or both below 2^56)".
fn addresses_are_legal(company: &Company, t: &Target) -> bool {
    let one_half = !company.has_two_ranges() || t.first >> 63 == t.last >> 63;
    t.first <= t.last && company.holds_address(t.first) && company.holds_address(t.last) && one_half
}

/// The first surviving entry by processor, kind and base.
fn first_gap(t: &Target, effects: &[Effect]) -> Option<Entry> {
    let asid = witness_asid(t, effects);
    (0..8).filter(|p| t.processors >> p & 1 == 1).find_map(|processor| {
        let kinds = KINDS.iter().filter(|(leaf, _)| *leaf == 1 || t.leaves == 0);
        kinds.copied().find_map(|(leaf, level)| gap_of_kind(t, effects, &witness(t, processor, leaf, level, asid)))
    })
}

/// The hardest entry of its kind to drop: "XS 1, not global, the target's ASID or the lowest that no step's used ASID field holds".
fn witness(t: &Target, processor: u64, leaf: u64, level: i64, asid: u64) -> Entry {
    Entry {
        processor,
        regime: t.regime,
        security: t.security,
        vmid: t.vmid,
        asid,
        global: 0,
        stage2: t.stage2,
        ns: t.ns,
        wide: t.wide,
        granule: t.granule,
        level,
        leaf,
        xs: 1,
        base: 0,
    }
}

/// In EL2, EL3 and stage 2 no step uses the field and the target has no ASID, so this is 0 there.
fn witness_asid(t: &Target, effects: &[Effect]) -> u64 {
    if t.one == 1 {
        return t.asid;
    }
    let mut asid = 0;
    while effects.iter().any(|effect| effect.asid == Some(asid)) {
        asid += 1;
    }
    asid
}

/// The lowest base at which an entry like `kind` meets the target and survives every step; none too if its level has no span.
fn gap_of_kind(t: &Target, effects: &[Effect], kind: &Entry) -> Option<Entry> {
    let below = below(exponent(kind.wide, kind.granule, kind.level)?);
    let mut base = t.first & !below;
    while base <= t.last {
        match past_cover(effects, kind, base, base | below) {
            None => return Some(Entry { base, ..*kind }),
            // Everything up to the end of the span that holds a range's last address goes by that range: go on behind it.
            Some(last) => base = (last | below).checked_add(1)?,
        }
    }
    None
}

/// The furthest last address of a step that drops this entry, none if every step leaves it.
fn past_cover(effects: &[Effect], kind: &Entry, first: u64, last: u64) -> Option<u64> {
    effects.iter().filter(|effect| effect.meets(first, last) && effect.drops_if_met(kind)).map(|effect| effect.last).max()
}
