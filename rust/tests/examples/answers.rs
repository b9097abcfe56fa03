//! READINGS 1: sources, answers, order of checks.

use super::*;
use crate::plain::record::{Found, Inserted, Ran};

const UNKNOWN: u64 = 0xD503_201F;

/// 1.1: "EL3, RME, NSE 1, NS 0, TLBIP RVAE2 -> 2 (not 5); RVAE3 -> 2 (not 0); an unknown word -> 2 (not 1)."
#[test]
fn r1_1_rme_with_1_0_is_2_for_every_call() {
    let state = State { rme: 1, scr_nse: 1, d128: 1, ..at_el3(0) };
    for word in [sysp(4, 6, 1), sys(6, 6, 1), UNKNOWN] {
        assert_eq!(answer(&state, word, M1), 2);
    }
    assert_eq!(plain::look_up(&[], &state, 0, 0, 0), (2, Found::default()));
    assert_eq!(plain::run(&mut [], &state, &[]), (2, Ran::default()));
    assert_eq!(plain::judge(&state, &m11_target(), &[]), (2, NOTHING));
    // "Without RME, NSE is not read: NSE 1, NS 0 is plain Secure."
    let secure = State { rme: 0, ..state };
    assert!(goes(&secure, RVAAE1IS, M1, Entry { security: 0, ..page(0x4000_0000) }));
    assert!(!goes(&secure, RVAAE1IS, M1, Entry { security: 2, ..page(0x4000_0000) }));
}

/// 1.2: "Bad state with unknown word -> 2. Bad table shape with bad state -> 13."
#[test]
fn r1_2_order_of_13_2_1() {
    let bad = State { el: 4, ..plain_state() };
    assert_eq!(answer(&bad, UNKNOWN, 0), 2);
    assert_eq!(plain::execute(&mut [0; 4], &bad, UNKNOWN, 0, 0).0, 13);
    assert_eq!(plain::look_up(&[0; 4], &bad, 9, 0, 0).0, 13);
    assert_eq!(plain::look_up(&[0; 3], &bad, 9, 0, 0).0, 2);
}

/// 1.3: "D54C80C1 (TLBIP RIPAS2LE1IS, X1) in m9's state -> 3 (not 4), in m10's -> 3 (not 5). An unknown SYSP with odd Rt -> 1."
#[test]
fn r1_3_odd_rt_first() {
    assert_eq!(answer2(&m9_state(), 0xD54C_80C1, M1, 0), (3, 0));
    assert_eq!(answer2(&m10_state(), 0xD54C_80C1, M1, 0), (3, 0));
    assert_eq!(answer2(&m10_state(), sysp(1, 6, 1) + 1, M1, 0), (1, 0));
}

/// 1.4: "m10 with TG 00 -> 5; m9 with a zero operand -> 4."
#[test]
fn r1_4_5_and_4_before_6() {
    assert_eq!(answer2(&m10_state(), M9, 0x0000_0000_0004_0000, 0), (5, 0));
    assert_eq!(answer2(&m9_state(), M9, 0, 0), (4, 0x14));
}

/// 1.5, 1.6: "Step 0 of another company and step 1 unknown: 10 with step 1, not 11 with step 0."
#[test]
fn r1_5_two_passes() {
    let target = Target { vmid: 7, ..m11_target() };
    let list = [RVAAE1IS, M1, 0, UNKNOWN, 0, 0];
    assert_eq!(plain::judge(&plain_state(), &target, &list), at_step(10, 1));
    assert_eq!(plain::judge(&plain_state(), &target, &list[..3]), at_step(11, 0));
}

/// 1.7: "Execute, insert, look up: the table. Run: table or list. Judge: only the list."
#[test]
fn r1_7_shapes() {
    let bad = State { el: 4, ..plain_state() };
    let bad_target = Target::default();
    assert_eq!(plain::judge(&bad, &bad_target, &[0; 51]), (13, NOTHING));
    assert_eq!(plain::judge(&bad, &bad_target, &[0; 2]), (13, NOTHING));
    assert_eq!(plain::judge(&bad, &bad_target, &[0; 48]), (2, NOTHING));
    for (table, list, expected) in [(4, 0, 13), (6147, 0, 13), (6, 49, 13), (6, 51, 13), (6144, 48, 10)] {
        let ran = plain::run(&mut vec![0; table], &plain_state(), &vec![0; list]);
        assert_eq!(ran, (expected, Ran::default()));
    }
    assert_eq!(plain::insert(&mut vec![0; 6147], &page(0), 0).0, 13);
    assert_eq!(plain::insert(&mut vec![0; 6144], &page(0), 0).0, 0);
    assert_eq!(plain::execute(&mut vec![0; 6147], &plain_state(), RVAAE1IS, M1, 0).0, 13);
    assert_eq!(plain::execute(&mut vec![0; 6144], &plain_state(), RVAAE1IS, M1, 0).0, 0);
    assert_eq!(plain::look_up(&vec![0; 6147], &plain_state(), 0, 0, 0).0, 13);
}

/// 1.8: "Run -> 0, sum 0 (after 13, 2). Judge -> 12 always, with the first non-leaf level that has a span (or leaf level 1)".
#[test]
fn r1_8_empty_list() {
    assert_eq!(plain::run(&mut table_of(&[page(0)]), &plain_state(), &[]), (0, Ran::default()));
    assert_eq!(plain::judge(&plain_state(), &m11_target(), &[]), witness(non_leaf(-1, 0)));
    let of = |granule| Target { granule, ..m11_target() };
    let expected = |granule, level| witness(Entry { granule, ..non_leaf(level, 0) });
    assert_eq!(plain::judge(&plain_state(), &of(2), &[]), expected(2, 0));
    assert_eq!(plain::judge(&plain_state(), &of(3), &[]), expected(3, 1));
    let leaves = Target { leaves: 1, ..m11_target() };
    assert_eq!(plain::judge(&plain_state(), &leaves, &[]), witness(leaf(1, 0x4000_0000)));
}

/// 1.9: "insert -> 9 (8 if illegal), look up -> 14 with 0 examined, execute -> 0 with 0 dropped."
#[test]
fn r1_9_zero_slots() {
    assert_eq!(plain::insert(&mut [], &page(0), 0), (9, Inserted::default()));
    assert_eq!(plain::insert(&mut [], &page(1), 0), (8, Inserted::default()));
    assert_eq!(plain::look_up(&[], &plain_state(), 0, 0, 0), (14, Found::default()));
    assert_eq!(plain::execute(&mut [], &plain_state(), RVAAE1IS, M1, 0), (0, Executed::default()));
}

/// 1.10: "An illegal entry and a full table -> 8."
#[test]
fn r1_10_8_before_9() {
    let mut full = table_of(&[page(0), page(0x1000)]);
    let before = full.clone();
    assert_eq!(plain::insert(&mut full, &page(1), 0), (8, Inserted::default()));
    assert_eq!(plain::insert(&mut full, &page(0), 0), (9, Inserted::default()));
    assert_eq!(full, before);
}

/// 1.11: "On 14: slot 0, output word 0, examined = all."
#[test]
fn r1_11_not_found_examines_all() {
    let table = table_of(&[page(0), page(0x1000)]);
    assert_eq!(plain::look_up(&table, &plain_state(), 0, 0, 0x2000), (14, Found { slot: 0, output: 0, examined: 2 }));
    assert_eq!(plain::look_up(&table, &plain_state(), 0, 0, 0x1FFF), (0, Found { slot: 1, output: 101, examined: 2 }));
}

/// 1.12: "EL3 absent, regime EL3 -> entries of EL3/Secure are found. EL2 disabled, regime EL2 -> found by security state."
#[test]
fn r1_12_a_lookup_does_not_mind_the_regime() {
    let of = |regime, security| table_of(&[Entry { regime, security, ..page(0) }]);
    let found = |regime, security| plain::look_up(&of(regime, security), &plain_state(), regime, 0, 0).0;
    assert_eq!(found(3, 0), 0);
    assert_eq!(found(3, 3), 14);
    assert_eq!(found(2, 1), 0);
    assert_eq!(found(2, 0), 14);
}

/// 1.13: "Look up at EL0 is not a bad state; E2H/TGE are not read by a lookup".
#[test]
fn r1_13_lookup_at_el0() {
    let state = State { el: 0, hcr_e2h: 1, hcr_tge: 1, ..with_el2(0) };
    assert_eq!(plain::look_up(&table_of(&[page(0)]), &state, 0, 0, 0).0, 0);
    assert_eq!(answer(&state, RVAAE1IS, M1), 3);
}

/// 1.14: "0x1_D508_8260 -> 1. In a run or judge: 10 at that step."
#[test]
fn r1_14_words_of_2_to_the_32_or_more() {
    let word = 0x1_D508_8260;
    assert_eq!(answer(&plain_state(), word, M1), 1);
    let list = [RVAAE1IS, M1, 0, word, M1, 0];
    let mut table = table_of(&[page(0x4000_0000)]);
    let before = table.clone();
    assert_eq!(plain::run(&mut table, &plain_state(), &list), (10, Ran { dropped: 0, step: 1 }));
    assert_eq!(table, before);
    assert_eq!(plain::judge(&plain_state(), &m11_target(), &list), at_step(10, 1));
}

/// "Run: ... else all steps in order and the sum of dropped slots."
#[test]
fn a_run_sums_what_its_steps_drop() {
    let mut table = table_of(&[page(0x4000_0000), page(0x4000_2000), page(0x4000_4000)]);
    let list = [RVAAE1IS, M1, 0, RVAAE1IS, M12, 0];
    assert_eq!(plain::run(&mut table, &plain_state(), &list), (0, Ran { dropped: 2, step: 0 }));
    assert_eq!(table[..6], [0; 6]);
    assert_eq!(table[6], 0x4000_4000);
}

/// "Look up: 13, 2, 14"; the header adds 8 between 2 and 14 for "a regime that is none". An ASID over 0xffff is refused with it, which the header's 16 bits cannot hold.
#[test]
fn a_lookup_of_no_regime_is_8() {
    let table = table_of(&[page(0)]);
    assert_eq!(plain::look_up(&table, &plain_state(), 4, 0, 0), (8, Found::default()));
    assert_eq!(plain::look_up(&table, &plain_state(), 2, 0x10000, 0), (8, Found::default()));
}
