//! m1 to m12: "RVAAE1IS run from EL1, answer 0, no LPA2, unless said".

use super::*;

fn pages_gone(state: &State, xt: u64, bases: &[u64]) -> Vec<bool> {
    let entries: Vec<Entry> = bases.iter().map(|&base| page(base)).collect();
    gone(state, RVAAE1IS, xt, &entries)
}

#[test]
fn m1_two_pages() {
    let bases = [0x3FFF_F000, 0x4000_0000, 0x4000_1000, 0x4000_2000];
    assert_eq!(pages_gone(&plain_state(), M1, &bases), [false, true, true, false]);
}

#[test]
fn m2_from_0_to_1_ffff_ffff() {
    let bases = [0, 0x1_FFFF_F000, 0x2_0000_0000, 0xFFFF_FFFF_FFFF_F000];
    assert_eq!(pages_gone(&plain_state(), 0x0000_7F80_0000_0000, &bases), [true, true, false, false]);
}

#[test]
fn m3_only_the_last_page_below_2_to_the_64() {
    let bases = [0xFFFF_FFFF_FFFF_E000, 0xFFFF_FFFF_FFFF_F000, 0, 0x1000];
    assert_eq!(pages_gone(&plain_state(), 0x0000_401F_FFFF_FFFF, &bases), [false, true, false, false]);
}

#[test]
fn m4_is_7() {
    assert_eq!(answer(&plain_state(), RVAAE1IS, 0x0000_4040_0004_0001), 7);
}

#[test]
fn m5_level_2_leaf_goes_level_3_leaf_stays() {
    let entries = [leaf(2, 0x4000_0000), leaf(3, 0x4000_0000)];
    assert_eq!(gone(&plain_state(), RVAAE1IS, 0x0000_4040_0004_0000, &entries), [true, false]);
}

#[test]
fn m6_is_6() {
    assert_eq!(answer(&plain_state(), RVAAE1IS, 0x0000_0000_0004_0000), 6);
}

#[test]
fn m7_as_m1_with_lpa2_and_ds() {
    let state = State { lpa2: 1, ds_el1: 1, ..plain_state() };
    let bases = [0x3FFF_F000, 0x4000_0000, 0x4000_1000, 0x4000_2000];
    assert_eq!(pages_gone(&state, 0x0000_4000_0000_4000, &bases), [false, true, true, false]);
}

#[test]
fn m8_16k_any_level() {
    let of_16k = |level, base| Entry { granule: 2, ..leaf(level, base) };
    let entries = [of_16k(3, 0), of_16k(3, 0x4000), of_16k(3, 0x8000), of_16k(3, 0xC000), of_16k(2, 0), of_16k(1, 0)];
    let expected = [false, true, true, false, true, true];
    assert_eq!(gone(&plain_state(), RVAAE1IS, 0x0000_8020_0000_0001, &entries), expected);
}

#[test]
fn m9_is_trapped_with_14() {
    assert_eq!(answer2(&m9_state(), M9, M1, 0), (4, 0x14));
}

#[test]
fn m10_is_5() {
    assert_eq!(answer2(&m10_state(), M9, M1, 0), (5, 0));
}

#[test]
fn m11_is_12_with_the_third_page() {
    let judged = plain::judge(&plain_state(), &m11_target(), &[RVAAE1IS, M1, 0]);
    assert_eq!(judged, witness(leaf(3, 0x4000_2000)));
}

#[test]
fn m12_is_accepted() {
    assert_eq!(plain::judge(&plain_state(), &m11_target(), &[RVAAE1IS, M12, 0]), ACCEPTED);
}

/// "IS reaching every named processor".
#[test]
fn m11_and_m12_on_two_processors() {
    let state = State { count: 2, ..plain_state() };
    let target = Target { processors: 3, ..m11_target() };
    assert_eq!(plain::judge(&state, &target, &[RVAAE1IS, M1, 0]), witness(leaf(3, 0x4000_2000)));
    assert_eq!(plain::judge(&state, &target, &[RVAAE1IS, M12, 0]), ACCEPTED);
}
