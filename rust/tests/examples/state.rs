//! READINGS 3: processor state and access rules.

use super::*;

const PAGE: u64 = 0x4000_0000;

fn entry(regime: u64, security: u64, vmid: u64) -> Entry {
    Entry { regime, security, vmid, ..page(PAGE) }
}

/// 3.1: "at EL3 with EL2 disabled and raw E2H = TGE = 1 an E1 name acts on EL1&0 with VMID 0".
#[test]
fn r3_1_e2h_and_tge_while_el2_is_disabled() {
    let state = State { hcr_e2h: 1, hcr_tge: 1, vmid: 7, ..at_el3(0) };
    let entries = [entry(0, 0, 0), entry(0, 0, 7), entry(1, 0, 0)];
    assert_eq!(gone(&state, RVAAE1IS, M1, &entries), [true, false, false]);
    let enabled = State { sel2: 1, scr_eel2: 1, ..state };
    assert_eq!(gone(&enabled, RVAAE1IS, M1, &entries), [false, false, true]);
}

/// 3.2: "Plain state with VMID 7: an entry of VMID 7 stays, one of VMID 0 goes", "and in lookups".
#[test]
fn r3_2_the_vmid_used() {
    let state = State { vmid: 7, ..plain_state() };
    let entries = [entry(0, 1, 7), entry(0, 1, 0)];
    assert_eq!(gone(&state, RVAAE1IS, M1, &entries), [false, true]);
    assert_eq!(plain::look_up(&table_of(&entries), &state, 0, 0, PAGE).1.slot, 1);
    let enabled = State { vmid: 7, ..with_el2(1) };
    assert_eq!(gone(&enabled, RVAAE1IS, M1, &entries), [true, false]);
    assert_eq!(plain::look_up(&table_of(&entries), &enabled, 0, 0, PAGE).1.examined, 1);
}

/// 3.3: "{E2H,TGE} = 11 and EL1: regime EL1&0 with the VMID".
#[test]
fn r3_3_host_bits_at_el1() {
    let state = State { hcr_e2h: 1, hcr_tge: 1, vmid: 7, ..with_el2(1) };
    assert_eq!(gone(&state, RVAAE1IS, M1, &[entry(0, 1, 7), entry(1, 1, 0)]), [true, false]);
}

/// 3.4: "TGE 1, E2H 0 at EL2/EL3: EL1&0. E2H 1, TGE 0: E1 names EL1&0, E2 names EL2&0."
#[test]
fn r3_4_one_host_bit() {
    let entries = [entry(0, 1, 0), entry(1, 1, 0), entry(2, 1, 0)];
    for base in [with_el2(2), at_el3(1)] {
        let tge = State { hcr_tge: 1, ..base };
        assert_eq!(gone(&tge, RVAAE1IS, M1, &entries), [true, false, false]);
        assert_eq!(gone(&tge, sys(4, 6, 1), M1, &entries), [false, false, true]);
        let e2h = State { hcr_e2h: 1, ..base };
        assert_eq!(gone(&e2h, RVAAE1IS, M1, &entries), [true, false, false]);
        assert_eq!(gone(&e2h, sys(4, 6, 1), M1, &entries), [false, true, false]);
        let both = State { hcr_e2h: 1, hcr_tge: 1, ..base };
        assert_eq!(gone(&both, RVAAE1IS, M1, &entries), [false, true, false]);
    }
}

/// 3.5: "EL3, no RME, NS 1: RVAAE1 acts on Non-secure, RVAE3 on Secure. With RME an EL3/Secure entry is legal but never goes."
#[test]
fn r3_5_security_state_of_each_name() {
    let state = at_el3(1);
    assert_eq!(gone(&state, RVAAE1IS, M1, &[entry(0, 0, 0), entry(0, 1, 0)]), [false, true]);
    let el3 = [entry(3, 0, 0), entry(3, 3, 0)];
    assert_eq!(gone(&state, sys(6, 6, 1), M1, &el3), [true, false]);
    for (scr_nse, scr_ns, security) in [(0, 0, 0), (0, 1, 1), (1, 1, 2)] {
        let rme = State { rme: 1, scr_nse, scr_ns, ..at_el3(0) };
        assert_eq!(gone(&rme, sys(6, 6, 1), M1, &el3), [false, true]);
        let entries = [entry(0, 0, 0), entry(0, 1, 0), entry(0, 2, 0)];
        let expected: Vec<bool> = (0..3).map(|s| s == security).collect();
        assert_eq!(gone(&rme, RVAAE1IS, M1, &entries), expected);
    }
}

/// 3.6: "EL3 absent, NS 0, EL2 present -> EL2 enabled"; FGTEn and HXEn aren't read either.
#[test]
fn r3_6_scr_fields_with_el3_absent() {
    assert_eq!(answer2(&State { hcr_ttlb: 1, ..with_el2(1) }, RVAAE1IS, M1, 0), (4, 0x18));
    assert_eq!(answer2(&State { fgt: 1, trap_rvaae1is: 1, ..with_el2(1) }, RVAAE1IS, M1, 0), (4, 0x18));
    let fnxs = State { hcx: 1, xs: 1, hcrx_fnxs: 1, ..with_el2(1) };
    assert!(!goes(&fnxs, RVAAE1IS, M1, Entry { xs: 1, ..page(PAGE) }));
    let odd = State { scr_nse: 1, scr_eel2: 1, ..plain_state() };
    assert!(goes(&odd, RVAAE1IS, M1, page(PAGE)));
}

/// 3.7: "RME, {0,0}, EEL2 1, SEL2 0 -> EL2 disabled."
#[test]
fn r3_7_rme_does_not_imply_sel2() {
    let state = State { rme: 1, scr_eel2: 1, ..at_el3(0) };
    assert_eq!(answer(&state, sys(4, 6, 1), M1), 3);
    assert_eq!(answer(&State { el: 2, ..state }, sys(4, 6, 1), M1), 2);
    assert_eq!(answer(&State { sel2: 1, ..state }, sys(4, 6, 1), M1), 0);
}

/// 3.8: "with HCX absent an NXS name is not trapped by FGT while its plain twin is. With HCX and HXEn 0 (not live) it is trapped
/// whatever FGTnXS says."
#[test]
fn r3_8_fgt_of_nxs_names() {
    let fgt = State { fgt: 1, xs: 1, trap_rvaae1is: 1, ..with_el2(1) };
    assert_eq!(answer(&fgt, RVAAE1IS, M1), 4);
    assert_eq!(answer(&fgt, nxs(RVAAE1IS), M1), 0);
    let live = State { hcx: 1, ..fgt };
    assert_eq!(answer(&live, nxs(RVAAE1IS), M1), 4);
    assert_eq!(answer(&State { hcrx_fgtnxs: 1, ..live }, nxs(RVAAE1IS), M1), 0);
    assert_eq!(answer(&State { hcrx_fgtnxs: 1, ..live }, RVAAE1IS, M1), 4);
    let not_live = State { el3: 1, scr_ns: 1, scr_fgten: 1, hcrx_fgtnxs: 1, ..live };
    assert_eq!(answer(&not_live, nxs(RVAAE1IS), M1), 4);
    assert_eq!(answer(&State { scr_hxen: 1, ..not_live }, nxs(RVAAE1IS), M1), 0);
    assert_eq!(answer(&State { scr_fgten: 0, ..not_live }, nxs(RVAAE1IS), M1), 0);
    assert_eq!(answer(&State { scr_fgten: 0, ..not_live }, RVAAE1IS, M1), 0);
}

/// 3.9: "Twelve flags": each traps the plain, NXS, TLBI and TLBIP form of its own name and shareability, and nothing else.
#[test]
fn r3_9_twelve_flags() {
    let base = State { fgt: 1, hcx: 1, xs: 1, d128: 1, tlbios: 1, ..with_el2(1) };
    let states = [
        (State { trap_rvae1: 1, ..base }, 6, 1),
        (State { trap_rvae1is: 1, ..base }, 2, 1),
        (State { trap_rvae1os: 1, ..base }, 5, 1),
        (State { trap_rvaae1: 1, ..base }, 6, 3),
        (State { trap_rvaae1is: 1, ..base }, 2, 3),
        (State { trap_rvaae1os: 1, ..base }, 5, 3),
        (State { trap_rvale1: 1, ..base }, 6, 5),
        (State { trap_rvale1is: 1, ..base }, 2, 5),
        (State { trap_rvale1os: 1, ..base }, 5, 5),
        (State { trap_rvaale1: 1, ..base }, 6, 7),
        (State { trap_rvaale1is: 1, ..base }, 2, 7),
        (State { trap_rvaale1os: 1, ..base }, 5, 7),
    ];
    for (state, trapped_crm, trapped_op2) in states {
        for (crm, op2) in [2, 5, 6].iter().flat_map(|&crm| [1, 3, 5, 7].iter().map(move |&op2| (crm, op2))) {
            let hit = crm == trapped_crm && op2 == trapped_op2;
            for word in [sys(0, crm, op2), nxs(sys(0, crm, op2))] {
                assert_eq!(answer2(&state, word, M1, 0), if hit { (4, 0x18) } else { (0, 0) });
                assert_eq!(answer2(&state, word + 0x40_0000, M1, 0), if hit { (4, 0x14) } else { (0, 0) });
            }
        }
        assert_eq!(answer(&State { el: 2, ..state }, sys(0, trapped_crm, trapped_op2), M1), 0);
        assert_eq!(answer(&State { fgt: 0, ..state }, sys(0, trapped_crm, trapped_op2), M1), 0);
    }
}

/// 3.10: "a plain name acts as NXS (entries with XS 1 stay). Not at EL2/EL3, not for E2, RIPAS2. Needs XS too."
#[test]
fn r3_10_fnxs() {
    let state = State { hcx: 1, xs: 1, hcrx_fnxs: 1, ..with_el2(1) };
    let xs1 = |regime| Entry { xs: 1, ..entry(regime, 1, 0) };
    assert!(!goes(&state, RVAAE1IS, M1, xs1(0)));
    assert!(goes(&state, RVAAE1IS, M1, entry(0, 1, 0)));
    assert!(goes(&State { xs: 0, ..state }, RVAAE1IS, M1, xs1(0)));
    assert!(goes(&State { hcx: 0, ..state }, RVAAE1IS, M1, xs1(0)));
    let at_el2 = State { el: 2, ..state };
    assert!(goes(&at_el2, RVAAE1IS, M1, xs1(0)));
    assert!(goes(&at_el2, sys(4, 6, 1), M1, xs1(2)));
    assert!(goes(&at_el2, sys(4, 4, 2), M1, Entry { stage2: 1, ..xs1(0) }));
    // "the trap is decided for the plain name"
    let trapping = State { fgt: 1, trap_rvaae1is: 1, hcrx_fgtnxs: 1, ..state };
    assert_eq!(answer(&trapping, RVAAE1IS, M1), 4);
}

/// 3.11: "Domains of processors at or above the count are free. One outer domain may hold many inner ones."
#[test]
fn r3_11_domains() {
    let mut state = State { count: 2, ..plain_state() };
    state.outer[7] = 9;
    assert_eq!(answer(&state, RVAAE1IS, M1), 0);
    state.inner[1] = 5;
    assert_eq!(answer(&state, RVAAE1IS, M1), 0);
    state.outer[1] = 1;
    assert_eq!(answer(&state, RVAAE1IS, M1), 0);
    state.inner[1] = 0;
    assert_eq!(answer(&state, RVAAE1IS, M1), 2);
    state.count = 1;
    assert_eq!(answer(&state, RVAAE1IS, M1), 0);
}

/// 3.12: "EL over 3 (a byte can be 255); count 0 or 9; own = count; EL2 Secure-disabled at EL2 is 2 even for a lookup."
#[test]
fn r3_12_bad_states() {
    let bad = [
        State { el: 4, ..plain_state() },
        State { el: 255, ..plain_state() },
        State { el: 2, ..plain_state() },
        State { el: 3, ..plain_state() },
        State { rme: 1, ..plain_state() },
        State { count: 0, ..plain_state() },
        State { count: 9, ..plain_state() },
        State { own: 1, ..plain_state() },
        State { el: 2, el2: 1, el3: 1, ..plain_state() },
        State { el: 2, el2: 1, el3: 1, sel2: 1, ..plain_state() },
    ];
    for state in bad {
        assert_eq!(answer(&state, RVAAE1IS, M1), 2, "{:?}", state);
        assert_eq!(plain::look_up(&[], &state, 0, 0, 0).0, 2);
        assert_eq!(plain::run(&mut [], &state, &[]).0, 2);
        assert_eq!(plain::judge(&state, &m11_target(), &[]).0, 2);
    }
    assert_eq!(answer(&State { count: 8, own: 7, ..plain_state() }, RVAAE1IS, M1), 0);
}

/// 3.13: "NV at EL1 traps E2 names and RIPAS2 only; E3 names at EL1 stay 3 with NV. TTLB, TTLBIS, TTLBOS and FGT never trap E2 names
/// or RIPAS2."
#[test]
fn r3_13_nv_at_el1() {
    let nv = State { hcr_nv: 1, ..with_el2(1) };
    assert_eq!(answer(&nv, RVAAE1IS, M1), 0);
    assert_eq!(answer2(&nv, sys(4, 6, 1), M1, 0), (4, 0x18));
    assert_eq!(answer2(&nv, sys(4, 4, 2), M1, 0), (4, 0x18));
    assert_eq!(answer2(&nv, sys(6, 6, 1), M1, 0), (3, 0));
    let others = State { hcr_ttlb: 1, hcr_ttlbis: 1, hcr_ttlbos: 1, ..with_el2(1) };
    assert_eq!(answer(&others, sys(4, 2, 1), M1), 3);
    assert_eq!(answer(&others, sys(4, 0, 2), M1), 3);
    assert_eq!(answer(&State { el2: 0, ..nv }, sys(4, 6, 1), M1), 3);
    assert_eq!(answer(&with_el2(2), sys(6, 6, 1), M1), 3);
}

/// "trapped, with EL2 enabled, by TTLB; by TTLBIS (IS) or TTLBOS (OS)".
#[test]
fn ttlb_ttlbis_ttlbos() {
    let base = State { tlbios: 1, ..with_el2(1) };
    let states = [
        (State { hcr_ttlb: 1, ..base }, [4, 4, 4]),
        (State { hcr_ttlbis: 1, ..base }, [0, 4, 0]),
        (State { hcr_ttlbos: 1, ..base }, [0, 0, 4]),
    ];
    for (state, expected) in states {
        for (crm, number) in [6, 2, 5].iter().zip(expected.iter()) {
            assert_eq!(answer(&state, sys(0, *crm, 3), M1), *number);
            assert_eq!(answer(&State { el2: 0, ..state }, sys(0, *crm, 3), M1), 0);
        }
    }
}

/// "TLBI wants TLBIRANGE, and TLBIOS if OS; TLBIP wants D128; NXS wants XS. EL0 is always 3."
#[test]
fn absent_features() {
    assert_eq!(answer(&State { tlbirange: 0, ..plain_state() }, RVAAE1IS, M1), 3);
    assert_eq!(answer(&plain_state(), sys(0, 5, 3), M1), 3);
    assert_eq!(answer(&State { tlbios: 1, ..plain_state() }, sys(0, 5, 3), M1), 0);
    assert_eq!(answer(&State { tlbios: 1, tlbirange: 0, ..plain_state() }, sys(0, 5, 3), M1), 3);
    assert_eq!(answer(&plain_state(), nxs(RVAAE1IS), M1), 3);
    assert_eq!(answer(&plain_state(), sysp(0, 2, 3), M1), 3);
    assert_eq!(answer(&State { el: 0, ..plain_state() }, RVAAE1IS, M1), 3);
    // Absent features before a trap.
    assert_eq!(answer(&State { hcr_ttlb: 1, ..with_el2(1) }, nxs(RVAAE1IS), M1), 3);
}

/// 3.14: "D128, no TLBIOS, TLBIP RVAE3OS at EL3 -> runs", and TLBIRANGE isn't wanted either.
#[test]
fn r3_14_features_of_tlbip() {
    let state = State { d128: 1, tlbirange: 0, ..at_el3(1) };
    assert_eq!(answer(&state, sysp(6, 5, 1), M1), 0);
}

/// "At EL3 with EL2 disabled: E2 names 3, RIPAS2 5 (003)."
#[test]
fn at_el3_with_el2_disabled() {
    assert_eq!(answer(&at_el3(0), sys(4, 6, 1), M1), 3);
    assert_eq!(answer(&at_el3(0), sys(4, 4, 2), M1), 5);
    assert_eq!(answer(&at_el3(1), sys(4, 4, 2), M1), 0);
    assert_eq!(answer(&State { el2: 0, ..at_el3(1) }, sys(4, 4, 2), M1), 5);
}
