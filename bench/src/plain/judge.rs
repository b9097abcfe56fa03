//! Judging a list: the target's rules, the steps' answers and companies, and the search for the first entry that survives.

use super::answer;
use super::slot::{company_tag, entry_of, exponent, has_two_ranges, is_address, tag_of, COMPANY_BITS};
use super::state::is_bad;
use super::tables::{is_legal_company, is_list, works};
use super::work::Work;
use crate::records::{Entry, Judged, State, Target};

/// Leaf or not, and the level.
const KINDS: [(u64, i64); 7] = [(0, -1), (0, 0), (0, 1), (0, 2), (1, 1), (1, 2), (1, 3)];

pub fn judge(s: &State, t: &Target, list: &[u64], out: &mut Judged) -> u32 {
    *out = Judged::default();
    if !is_list(list.len()) {
        return answer::BAD_SHAPE;
    }
    if is_bad(s) {
        return answer::BAD_STATE;
    }
    if !is_target(s, t) {
        return answer::BREAKS_RULE;
    }
    let (works, n) = match works(s, list) {
        Ok(found) => found,
        Err(step) => {
            out.step = step;
            return answer::STEP_REFUSED;
        }
    };
    let works = &works[..n];
    let company = company_tag(&t.company);
    if let Some(step) = works.iter().position(|work| work.key & COMPANY_BITS != company) {
        out.step = step as u64;
        return answer::STEP_OUTSIDE;
    }
    match first_gap(t, works) {
        Some(survivor) => {
            out.survivor = survivor;
            answer::GAP
        }
        None => answer::DONE,
    }
}

fn is_target(s: &State, t: &Target) -> bool {
    let fits = (t.wide | t.one | t.leaves) < 2 && (1..=3).contains(&t.granule) && t.asid < 0x1_0000;
    fits && is_legal_company(&t.company) && t.processors != 0 && t.processors >> s.board.count == 0 && are_addresses(t)
}

fn are_addresses(t: &Target) -> bool {
    let two = has_two_ranges(company_tag(&t.company));
    t.first <= t.last
        && is_address(two, t.first)
        && is_address(two, t.last)
        && (if two { t.first >> 55 == t.last >> 55 } else { t.one == 0 })
}

/// By processor, then by kind, then by base.
fn first_gap(t: &Target, works: &[Work]) -> Option<Entry> {
    let asid = if t.one == 1 { t.asid } else { free_asid(works) };
    for processor in (0..8).filter(|p| t.processors >> p & 1 == 1) {
        for (leaf, level) in KINDS {
            if leaf < t.leaves {
                continue;
            }
            let kind =
                Entry { processor, company: t.company, asid, global: 0, wide: t.wide, granule: t.granule, level, leaf, xs: 1, base: 0 };
            if let Some(base) = gap_of_kind(t, works, &kind) {
                return Some(entry_of(base, tag_of(&kind)));
            }
        }
    }
    None
}

/// The lowest ASID that no step uses: no step of a company without ASIDs uses one.
fn free_asid(works: &[Work]) -> u64 {
    let mut asid = 0;
    while works.iter().any(|work| work.one && work.asid == asid) {
        asid += 1;
    }
    asid
}

/// The lowest base at which an entry of a kind meets the target and survives.
fn gap_of_kind(t: &Target, works: &[Work], kind: &Entry) -> Option<u64> {
    let exponent = exponent(t.wide == 1, t.granule, (3 - kind.level) as u64);
    if exponent == 0 {
        return None;
    }
    let below = (1 << exponent) - 1;
    let tag = tag_of(kind);
    let mut base = t.first & !below;
    loop {
        let takes = |work: &&Work| work.meets(base, base | below) && work.key >> 26 == t.granule && work.takes(tag);
        // The range of a step drops every span of the kind up to the one that holds its last address: go on behind it.
        match works.iter().find(takes) {
            Some(work) => base = (work.last | below).checked_add(1)?,
            None => return Some(base),
        }
        if base > t.last {
            return None;
        }
    }
}
