//! READINGS 2: instruction words.

use super::*;
use crate::plain::record::Operation;

/// 2.1: "120 (name, share, nxs, TLBI/TLBIP) rows x 32 Rt = 3,840 words"; each is built again from what it reads as.
#[test]
fn r2_1_there_are_3840_words() {
    let mut count = 0;
    for form in [0xD508_0000u64, 0xD548_0000] {
        for low in 0..1u64 << 19 {
            let (number, op) = plain::decode(form + low);
            if number == 0 {
                count += 1;
                assert_eq!(plain::build(&op), (0, form + low));
            } else {
                assert_eq!((number, op), (1, Operation::default()));
            }
        }
    }
    assert_eq!(count, 3840);
}

/// 2.1: "SYSL (D5288260) and op0 other than 1 are answer 1. CRn other than 8, 9 -> 1."
#[test]
fn r2_1_fixed_bits() {
    for bit in 19..64 {
        let word = RVAAE1IS ^ 1 << bit;
        let expected = if bit == 22 { 0 } else { 1 };
        assert_eq!(plain::decode(word).0, expected, "{:x}", word);
    }
    assert_eq!(plain::decode(0xD528_8260).0, 1);
    assert_eq!(plain::decode(0xD508_7260).0, 1);
    assert_eq!(plain::decode(0xD508_A260).0, 1);
    assert_eq!(plain::decode(0xD508_0260).0, 1);
}

/// 01's rows, each (op1, CRm, op2) by its numbers.
#[test]
fn the_rows_of_01() {
    let (local, is, os) = (0, 1, 2);
    for (crm, share) in [(2, is), (5, os), (6, local)] {
        let rows = [(0, 1, 0), (0, 3, 1), (0, 5, 2), (0, 7, 3), (4, 1, 4), (4, 5, 5), (6, 1, 6), (6, 5, 7)];
        for (op1, op2, name) in rows {
            check_row(sys(op1, crm, op2), name, share);
        }
    }
    check_row(sys(4, 0, 2), 8, is);
    check_row(sys(4, 0, 6), 9, is);
    check_row(sys(4, 4, 2), 8, local);
    check_row(sys(4, 4, 6), 9, local);
    check_row(sys(4, 4, 3), 8, os);
    check_row(sys(4, 4, 7), 9, os);
}

fn check_row(word: u64, name: u64, share: u64) {
    let op = Operation { name, share, nxs: 0, tlbip: 0, rt: 0 };
    assert_eq!(plain::decode(word), (0, op));
    assert_eq!(plain::decode(nxs(word) + 5), (0, Operation { nxs: 1, rt: 5, ..op }));
    assert_eq!(plain::decode(word + 0x40_0000), (0, Operation { tlbip: 1, ..op }));
}

/// READINGS' head: "RPAOS, RPALOS, PAALL, PAALLOS and VMALLWS2E1 are near misses: answer 1" (op1 6: CRm 4 op2 3 and 7, CRm 7 op2 4,
/// CRm 1 op2 4; VMALLWS2E1: op1 4, CRm 6 op2 2), and so are the single-address names of order 1 in the base.
#[test]
fn near_misses_are_1() {
    for word in [sys(6, 4, 3), sys(6, 4, 7), sys(6, 7, 4), sys(6, 1, 4), sys(4, 6, 2), sys(0, 7, 1), sys(4, 4, 1)] {
        assert_eq!(plain::decode(word), (1, Operation::default()));
    }
}

/// 2.2: "TLBI RVAAE1IS, XZR with a fine Xt passed -> 6, but only after the access rules (trapped stays 4). TLBIP Rt 31 -> 6."
#[test]
fn r2_2_rt_31() {
    assert_eq!(answer(&plain_state(), RVAAE1IS + 31, M1), 6);
    let trapping = State { hcr_ttlb: 1, ..with_el2(1) };
    assert_eq!(answer2(&trapping, RVAAE1IS + 31, M1, 0), (4, 0x18));
    let state = State { d128: 1, ..plain_state() };
    assert_eq!(answer2(&state, RVAAE1IS + 0x40_0000 + 31, M1, 1), (6, 0));
}

/// 2.3: "TLBIP RVAE2, X30 with Xt2 = 0x1234 acts on base 0."
#[test]
fn r2_3_sysp_with_rt_30() {
    let state = State { d128: 1, ..with_el2(2) };
    let of = |base| Entry { regime: 2, wide: 1, ..page(base) };
    let xt = operand(1, 0, 0, 0, 0);
    assert_eq!(gone2(&state, sysp(4, 6, 1) + 30, xt, 0x1234, &[of(0), of(0x123_4000)]), [true, false]);
    assert_eq!(gone2(&state, sysp(4, 6, 1) + 28, xt, 0x1234, &[of(0), of(0x123_4000)]), [false, true]);
}

/// 2.4: "Odd Rt of SYS (TLBI) is fine." 2.5: "A TLBI's Xt2 is not used, whatever it holds."
#[test]
fn r2_4_odd_rt_of_sys_and_r2_5_xt2_of_a_tlbi() {
    for rt in 0..31 {
        assert!(goes2(&plain_state(), RVAAE1IS + rt, M1, u64::MAX, page(0x4000_0000)));
    }
}

/// "build ... 8 (a value that no field can have, Rt over 31)".
#[test]
fn build_refuses_what_no_field_can_have() {
    let good = Operation { name: 9, share: 2, nxs: 1, tlbip: 1, rt: 31 };
    assert_eq!(plain::build(&good), (0, nxs(sysp(4, 4, 7)) + 31));
    let bad = [
        Operation { name: 10, ..good },
        Operation { share: 3, ..good },
        Operation { nxs: 2, ..good },
        Operation { tlbip: 2, ..good },
        Operation { rt: 32, ..good },
        Operation { rt: u64::MAX, ..good },
    ];
    for op in bad {
        assert_eq!(plain::build(&op), (8, 0));
    }
}
