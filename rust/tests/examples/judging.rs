//! READINGS 6: judging.

use super::*;

const PAGE: u64 = 0x4000_0000;
const RVAE1: u64 = 0xD508_8620;
const RVALE1: u64 = 0xD508_86A0;

fn judge(target: &Target, list: &[[u64; 2]]) -> (u32, Judged) {
    judge_in(&plain_state(), target, list)
}

fn judge_in(state: &State, target: &Target, list: &[[u64; 2]]) -> (u32, Judged) {
    let words: Vec<u64> = list.iter().flat_map(|step| [step[0], step[1], 0]).collect();
    let judged = plain::judge(state, target, &words);
    if judged.0 == 12 {
        // 6.16: "the witness alone in a table survives the run."
        let mut table = table_of(&[judged.1.survivor]);
        let before = table.clone();
        assert_eq!(plain::run(&mut table, state, &words).0, 0);
        assert_eq!(table, before);
    }
    judged
}

fn with_asid(xt: u64, asid: u64) -> u64 {
    xt | asid << 48
}

/// 6.1: "Empty list, target 0x40000000..: 4K 64-bit, not leaves only: non-leaf level -1 at base 0."
#[test]
fn r6_1_the_base_may_lie_below_the_target() {
    assert_eq!(judge(&m11_target(), &[]), witness(non_leaf(-1, 0)));
    let high = Target { first: 0xFFFF_FFFF_FFFF_F000, last: u64::MAX, ..m11_target() };
    assert_eq!(judge(&high, &[]), witness(non_leaf(-1, 0xFFFF_0000_0000_0000)));
}

/// 6.2: "A lower processor's level 3 gap comes before a higher processor's level -1 gap."
#[test]
fn r6_2_order_of_the_witness() {
    let state = State { count: 2, ..plain_state() };
    let target = Target { processors: 3, ..m11_target() };
    assert_eq!(judge_in(&state, &target, &[[sys(0, 6, 3), M1]]), witness(leaf(3, 0x4000_2000)));
    let covered = [[sys(0, 6, 3), M12]];
    assert_eq!(judge_in(&state, &target, &covered), witness(Entry { processor: 1, ..non_leaf(-1, 0) }));
}

/// 6.3: "list [RVAAE1 with bits 63:48 = 0] -> ASID 0. List [RVAE1 ASID 0, RVAE1 ASID 1, RVALE1 ASID 3] -> 2."
#[test]
fn r6_3_the_witness_asid() {
    assert_eq!(judge(&m11_target(), &[[RVAAE1IS, M1]]).1.survivor.asid, 0);
    let list = [[RVAE1, M1], [RVAE1, with_asid(M1, 1)], [RVALE1, with_asid(M1, 3)]];
    assert_eq!(judge(&m11_target(), &list).1.survivor.asid, 2);
    // "also steps of another granule, of a hint or range that don't matter"
    let other = [[RVAE1, operand(3, 0, 0, 2, 0)], [RVAAE1IS, with_asid(M1, 1)]];
    assert_eq!(judge(&m11_target(), &other).1.survivor.asid, 1);
    // "RVAAE1's RES0 bits don't" count.
    assert_eq!(judge(&m11_target(), &[[RVAAE1IS, with_asid(M1, 0)]]).1.survivor.asid, 0);
    // "the target's ASID"
    let one = Target { one: 1, asid: 5, ..m11_target() };
    assert_eq!(judge(&one, &[]), witness(Entry { asid: 5, ..non_leaf(-1, 0) }));
}

/// 6.4: "An all-ASID target is never met by ASID steps"; a one-ASID target is met by steps with its ASID.
#[test]
fn r6_4_asid_steps() {
    let list: Vec<[u64; 2]> = (0..16).map(|asid| [RVAE1, with_asid(M12, asid)]).collect();
    assert_eq!(judge(&m11_target(), &list), witness(Entry { asid: 16, ..non_leaf(-1, 0) }));
    let one = |asid| Target { one: 1, asid, ..m11_target() };
    assert_eq!(judge(&one(7), &list), ACCEPTED);
    assert_eq!(judge(&one(16), &list), witness(Entry { asid: 16, ..non_leaf(-1, 0) }));
    assert_eq!(judge(&one(16), &[[RVAAE1IS, M12]]), ACCEPTED);
}

/// 6.5: "a list of NXS names (or plain names under FnXS at EL1) is always 12, even if its ranges cover all."
#[test]
fn r6_5_nxs_steps_clear_nothing() {
    let state = State { xs: 1, ..plain_state() };
    assert_eq!(judge_in(&state, &m11_target(), &[[nxs(RVAAE1IS), M12]]), witness(non_leaf(-1, 0)));
    let fnxs = State { xs: 1, hcx: 1, hcrx_fnxs: 1, ..with_el2(1) };
    assert_eq!(judge_in(&fnxs, &m11_target(), &[[RVAAE1IS, M12]]), witness(non_leaf(-1, 0)));
    assert_eq!(judge_in(&State { el: 2, ..fnxs }, &m11_target(), &[[RVAAE1IS, M12]]), ACCEPTED);
}

/// 6.6: "First in the low half and last in the high half -> 8. EL1&0 stage 1 with last = 2^55 -> 8."
#[test]
fn r6_6_target_addresses() {
    let of = |first, last| judge(&Target { first, last, ..m11_target() }, &[]).0;
    assert_eq!(of(0, u64::MAX), 8);
    assert_eq!(of(0, 1 << 55), 8);
    assert_eq!(of(0, (1 << 55) - 1), 12);
    assert_eq!(of(0xFF80_0000_0000_0000, u64::MAX), 12);
    assert_eq!(of(0xFF7F_FFFF_FFFF_FFFF, u64::MAX), 8);
    assert_eq!(of(1, 0), 8);
    assert_eq!(of(1, 1), 12);
    let one_range = |first, last| judge(&Target { regime: 2, first, last, ..m11_target() }, &[]).0;
    assert_eq!(one_range(0, (1 << 56) - 1), 12);
    assert_eq!(one_range(1 << 55, 1 << 55), 12);
    assert_eq!(one_range(0, 1 << 56), 8);
    assert_eq!(one_range(0xFF80_0000_0000_0000, u64::MAX), 8);
    let stage2 = Target { stage2: 1, first: 1 << 55, last: 1 << 55, ..m11_target() };
    assert_eq!(judge(&stage2, &[]).0, 12);
}

/// 6.7: "One ASID where there are none -> 8, ASID 0 too."
#[test]
fn r6_7_one_asid_where_there_are_none() {
    for target in [Target { regime: 2, ..m11_target() }, Target { stage2: 1, ..m11_target() }] {
        assert_eq!(judge(&target, &[]).0, 12);
        assert_eq!(judge(&Target { one: 1, ..target }, &[]), (8, NOTHING));
    }
    let el3 = Target { regime: 3, security: 0, ..m11_target() };
    assert_eq!(judge(&Target { one: 1, ..el3 }, &[]).0, 8);
    assert_eq!(judge(&Target { one: 1, regime: 1, ..m11_target() }, &[]).0, 12);
}

/// 6.8: "Empty -> 8; a bit at or above the count -> 8 (count 3, set 0b1001)."
#[test]
fn r6_8_processor_set() {
    let state = State { count: 3, ..plain_state() };
    let of = |processors| judge_in(&state, &Target { processors, ..m11_target() }, &[]).0;
    assert_eq!([of(0), of(0b1001), of(0b1000), of(1 << 63), of(u64::MAX)], [8; 5]);
    assert_eq!([of(0b111), of(0b100)], [12; 2]);
}

/// 6.9: "(Realm target, Non-secure state) is legal: the first step is 11; the empty list 12."
#[test]
fn r6_9_a_company_the_state_cannot_make() {
    let realm = Target { security: 2, ..m11_target() };
    assert_eq!(judge(&realm, &[[RVAAE1IS, M1]]), at_step(11, 0));
    assert_eq!(judge(&realm, &[]).0, 12);
}

/// 6.10: "VMID not 0 outside EL1&0 -> 8; stage 2 outside EL1&0 -> 8; IPA space 1 unless Secure stage 2 -> 8; EL3 with Non-secure/Realm
/// -> 8; Root elsewhere -> 8. Width and granule are free".
#[test]
fn r6_10_companies() {
    let good = Target { security: 0, ..m11_target() };
    let bad = [
        Target { regime: 1, vmid: 1, ..good },
        Target { regime: 2, vmid: 1, ..good },
        Target { regime: 3, vmid: 1, ..good },
        Target { regime: 1, stage2: 1, ..good },
        Target { regime: 2, stage2: 1, ..good },
        Target { ns: 1, ..good },
        Target { ns: 1, stage2: 1, security: 1, ..good },
        Target { ns: 1, stage2: 1, security: 2, ..good },
        Target { regime: 3, security: 1, ..good },
        Target { regime: 3, security: 2, ..good },
        Target { security: 3, ..good },
        Target { regime: 1, security: 3, ..good },
        Target { regime: 2, security: 3, ..good },
    ];
    for target in bad {
        assert_eq!(judge(&target, &[[0, 0]]), (8, NOTHING), "{:?}", target);
    }
    let legal = [
        Target { vmid: 0xFFFF, ..good },
        Target { ns: 1, stage2: 1, vmid: 9, ..good },
        Target { regime: 3, ..good },
        Target { regime: 3, security: 3, ..good },
    ];
    for target in legal {
        for (wide, granule) in [(0, 1), (0, 2), (0, 3), (1, 1), (1, 2), (1, 3)] {
            assert_eq!(judge(&Target { wide, granule, ..target }, &[]).0, 12);
        }
    }
}

/// 6.11: "target VMID 7 in a plain state -> 11."
#[test]
fn r6_11_a_steps_company_under_el2_disabled() {
    let target = Target { vmid: 7, ..m11_target() };
    let state = State { vmid: 7, ..plain_state() };
    assert_eq!(judge_in(&state, &target, &[[RVAAE1IS, M12]]), at_step(11, 0));
    assert_eq!(judge_in(&State { el2: 1, ..state }, &target, &[[RVAAE1IS, M12]]), ACCEPTED);
}

/// 6.12: "A 128-bit target with TLBI steps is met with TTL 00 and D128 present, without it 12."
#[test]
fn r6_12_widths() {
    let wide = Target { wide: 1, ..m11_target() };
    let d128 = State { d128: 1, ..plain_state() };
    assert_eq!(judge_in(&d128, &wide, &[[RVAAE1IS, M12]]), ACCEPTED);
    assert_eq!(judge(&wide, &[[RVAAE1IS, M12]]), witness(Entry { wide: 1, ..non_leaf(-1, 0) }));
    // "Width and granule": a list for 4K says nothing of 16K, and the target of 16K is not met by it.
    let other = Target { granule: 2, ..m11_target() };
    assert_eq!(judge(&other, &[[RVAAE1IS, M12]]), witness(Entry { granule: 2, ..non_leaf(0, 0) }));
}

/// 6.13: "TTL 11 leaves level 1 and 2 leaves: witness leaf level 1. TTL 01 without leaves-only: witness non-leaf level 1. Together
/// [TTL 01, TTL 10, TTL 11] accept (aligned ranges), also for non-leaf."
#[test]
fn r6_13_hints() {
    let hint = |ttl| [RVAAE1IS, operand(1, 0, 1, ttl, 0x40000)];
    assert_eq!(judge(&m11_target(), &[hint(3)]), witness(leaf(1, PAGE)));
    assert_eq!(judge(&m11_target(), &[hint(1)]), witness(non_leaf(1, PAGE)));
    assert_eq!(judge(&m11_target(), &[hint(1), hint(2), hint(3)]), ACCEPTED);
    let leaves = Target { leaves: 1, ..m11_target() };
    let leaf_hint = |ttl| [sys(0, 2, 7), operand(1, 0, 1, ttl, 0x40000)];
    assert_eq!(judge(&leaves, &[leaf_hint(1), leaf_hint(2), leaf_hint(3)]), ACCEPTED);
    assert_eq!(judge(&m11_target(), &[leaf_hint(1), leaf_hint(2), leaf_hint(3)]), witness(non_leaf(-1, 0)));
}

/// 6.14: "Named processors that no step reaches are a gap (12), not 8 or 11. A step that reaches more processors than named is fine."
#[test]
fn r6_14_reach() {
    let mut state = State { count: 2, ..plain_state() };
    state.inner[1] = 1;
    let target = |processors| Target { processors, ..m11_target() };
    assert_eq!(judge_in(&state, &target(2), &[[RVAAE1IS, M12]]), witness(Entry { processor: 1, ..non_leaf(-1, 0) }));
    assert_eq!(judge_in(&state, &target(1), &[[RVAAE1IS, M12]]), ACCEPTED);
    state.inner[1] = 0;
    assert_eq!(judge_in(&state, &target(2), &[[RVAAE1IS, M12]]), ACCEPTED);
}

/// 6.15: "all bases met are" legal: at both ends of both halves the witness can be inserted (`judge_in` inserts it).
#[test]
fn r6_15_the_witness_is_legal() {
    for (first, last) in [(0, 0), ((1 << 55) - 1, (1 << 55) - 1), (0xFF80_0000_0000_0000, u64::MAX), (u64::MAX, u64::MAX)] {
        for (wide, granule) in [(0, 1), (0, 2), (0, 3), (1, 1), (1, 2), (1, 3)] {
            for leaves in 0..2 {
                let target = Target { first, last, wide, granule, leaves, ..m11_target() };
                assert_eq!(judge(&target, &[]).0, 12);
            }
        }
    }
}

/// "10 over all steps": a step that would be 6 or 7 too.
#[test]
fn steps_of_6_and_7() {
    assert_eq!(judge(&m11_target(), &[[RVAAE1IS, M12], [RVAAE1IS, 0x40000]]), at_step(10, 1));
    assert_eq!(judge(&m11_target(), &[[RVAAE1IS, M12], [RVAAE1IS, 0x0000_4040_0004_0001]]), at_step(10, 1));
}
