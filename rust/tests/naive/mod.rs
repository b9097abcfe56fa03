//! A deliberately naive judge: it puts every legal candidate entry of a small target, one at a time, into a table of one slot, runs the whole list over
//! it and looks whether it is still there. It shares with the plain judge only the rules of a single operation; which entries are asked for, in which
//! order, and what is named comes from 01's words again.
#![allow(dead_code)]

use crate::plain;
use crate::plain::record::{Entry, Judged, State, Target, Told};

/// 01's span exponents by width, granule and level + 1; 0 where there is none.
const EXPONENTS: [[[u32; 5]; 3]; 2] =
    [[[48, 39, 30, 21, 12], [0, 47, 36, 25, 14], [0, 0, 42, 29, 16]], [[44, 36, 28, 20, 12], [54, 44, 34, 24, 14], [0, 52, 40, 28, 16]]];

pub fn span(wide: u64, granule: u64, level: i64) -> Option<u64> {
    match EXPONENTS[wide as usize][granule as usize - 1][(level + 1) as usize] {
        0 => None,
        exponent => Some(1 << exponent),
    }
}

pub fn legal(entry: &Entry) -> bool {
    plain::insert(&mut [0; 3], entry, 0).0 == 0
}

/// Whether an entry alone in a table is still there after the list.
fn survives(state: &State, list: &[u64], entry: &Entry) -> bool {
    let mut table = [0; 3];
    assert_eq!(plain::insert(&mut table, entry, 1).0, 0, "{:?}", entry);
    let before = table;
    let (number, ran) = plain::run(&mut table, state, list);
    assert_eq!(number, 0);
    assert_eq!(ran.dropped == 0, table == before);
    assert!(table == before || table == [0; 3]);
    table == before
}

/// An entry of the target's company and nothing else decided.
pub fn of_company(t: &Target) -> Entry {
    Entry { regime: t.regime, security: t.security, vmid: t.vmid, stage2: t.stage2, ns: t.ns, ..Entry::default() }
}

pub fn has_asids(t: &Target) -> bool {
    t.stage2 == 0 && t.regime < 2
}

/// A target is legal if the pages at its two ends are legal entries, and by what an entry does not have.
fn target_is_legal(state: &State, t: &Target) -> bool {
    if t.wide > 1 || !(1..=3).contains(&t.granule) || t.one > 1 || t.leaves > 1 || t.asid > 0xFFFF {
        return false;
    }
    let granule = 1u64 << [12, 14, 16][t.granule as usize - 1];
    let page = |address: u64| {
        let base = address / granule * granule;
        Entry { wide: t.wide, granule: t.granule, level: 3, leaf: 1, base, ..of_company(t) }
    };
    let ends = legal(&page(t.first)) && legal(&page(t.last)) && t.first <= t.last && t.first >> 63 == t.last >> 63;
    let asid = t.one == 0 || legal(&Entry { asid: 1, ..page(t.first) });
    ends && asid && t.processors != 0 && t.processors < 1 << state.count
}

/// A leaf that a step must drop if it is of the target's company: of the step's own processor, granule, width, hint and range, XS 0.
pub fn hit_by(state: &State, t: &Target, step: &[u64]) -> Entry {
    let op = plain::decode(step[0]).1;
    let xt2 = if op.rt == 30 { 0 } else { step[2] };
    let (form, ds) = match (t.stage2, t.regime) {
        (1, _) => (4, state.ds_stage2),
        (_, 0) => (1, state.ds_el1),
        (_, 1) => (1, state.ds_el2),
        (_, 2) => (2, state.ds_el2),
        _ => (2, state.ds_el3),
    };
    let told = Told { tlbip: op.tlbip, form, lpa2: u64::from(state.lpa2), unit64k: u64::from(state.lpa2 & ds) };
    let (number, fields) = plain::read_operand(&told, step[1], xt2);
    assert_eq!(number, 0);
    let level = if fields.ttl == 0 { 3 } else { fields.ttl as i64 };
    let span = span(op.tlbip, fields.tg, level).unwrap();
    let base = fields.base / span * span;
    Entry { processor: u64::from(state.own), wide: op.tlbip, granule: fields.tg, level, leaf: 1, base, ..of_company(t) }
}

/// A step is of the target's company if it drops such a leaf, global where there are ASIDs.
pub fn in_company(state: &State, t: &Target, step: &[u64]) -> bool {
    let global = u64::from(has_asids(t));
    !survives(state, step, &Entry { global, ..hit_by(state, t, step) })
}

/// A step's used ASID field holds an ASID if such a leaf goes with that ASID and stays with another.
fn holds_asid(state: &State, t: &Target, step: &[u64], asid: u64) -> bool {
    let hit = hit_by(state, t, step);
    let stays = |asid| survives(state, step, &Entry { asid, ..hit });
    !stays(asid) && stays(asid ^ 0x8000)
}

/// "the target's ASID or the lowest that no step's used ASID field holds (0 without ASIDs)".
fn witness_asid(state: &State, t: &Target, list: &[u64]) -> u64 {
    if t.one == 1 {
        return t.asid;
    }
    if !has_asids(t) {
        return 0;
    }
    (0..).find(|&asid| !list.chunks(3).any(|step| holds_asid(state, t, step, asid))).unwrap()
}

/// Every legal entry that the target names at one place, for the ASIDs of interest.
fn variants(t: &Target, place: &Entry, asids: [u64; 2]) -> Vec<Entry> {
    let mut all = Vec::new();
    for asid in asids {
        for (global, xs) in [(0, 0), (0, 1), (1, 0), (1, 1)] {
            // "A one-ASID target includes global leaves; XS is free."
            let named = t.one == 0 || asid == t.asid || global == 1;
            let entry = Entry { asid, global, xs, ..*place };
            if named && legal(&entry) {
                all.push(entry);
            }
        }
    }
    all
}

pub fn judge(state: &State, t: &Target, list: &[u64]) -> (u32, Judged) {
    if list.len() % 3 != 0 || list.len() > 48 {
        return (13, Judged::default());
    }
    if plain::run(&mut [], state, &[]).0 == 2 {
        return (2, Judged::default());
    }
    if !target_is_legal(state, t) {
        return (8, Judged::default());
    }
    let refused = |step: &[u64]| plain::execute(&mut [], state, step[0], step[1], step[2]).0 != 0;
    if let Some(step) = list.chunks(3).position(refused) {
        return (10, Judged { step: step as u64, ..Judged::default() });
    }
    if let Some(step) = list.chunks(3).position(|step| !in_company(state, t, step)) {
        return (11, Judged { step: step as u64, ..Judged::default() });
    }
    match first_survivor(state, t, list) {
        Some(survivor) => (12, Judged { step: 0, survivor }),
        None => (0, Judged::default()),
    }
}

/// "by lowest processor, then non-leaf levels rising, then leaf levels rising, then lowest base".
fn first_survivor(state: &State, t: &Target, list: &[u64]) -> Option<Entry> {
    let asid = witness_asid(state, t, list);
    let other = list.get(1).map_or(0, |xt| xt >> 48);
    let kinds = [(0, -1), (0, 0), (0, 1), (0, 2), (1, 1), (1, 2), (1, 3)];
    for processor in (0..8).filter(|p| t.processors >> p & 1 == 1) {
        for (leaf, level) in kinds.iter().copied().filter(|(leaf, _)| t.leaves == 0 || *leaf == 1) {
            let span = match span(t.wide, t.granule, level) {
                Some(span) => span,
                None => continue,
            };
            for number in t.first / span..=t.last / span {
                let base = number * span;
                let place = Entry { processor, wide: t.wide, granule: t.granule, level, leaf, base, ..of_company(t) };
                if variants(t, &place, [asid, other]).iter().any(|entry| survives(state, list, entry)) {
                    let witness = Entry { xs: 1, asid, ..place };
                    assert!(survives(state, list, &witness), "the named entry goes: {:?}", witness);
                    return Some(witness);
                }
            }
        }
    }
    None
}
