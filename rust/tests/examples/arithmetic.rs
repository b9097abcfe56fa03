//! READINGS 9: arithmetic and speed.

use super::*;

fn judge(target: &Target, list: &[[u64; 3]]) -> (u32, Judged) {
    plain::judge(&State { d128: 1, ..plain_state() }, target, &list.concat())
}

/// 9.1: "*wrapping* does: a wrapped range would drop page 0 or nothing."
#[test]
fn r9_1_2_to_the_64_as_an_end() {
    let last_page = 0xFFFF_FFFF_FFFF_F000;
    let entries = [page(0), page(last_page), leaf(2, 0xFFFF_FFFF_FFE0_0000), non_leaf(-1, 0), non_leaf(-1, 0xFFFF_0000_0000_0000)];
    for xt in [0x0000_401F_FFFF_FFFF, operand(1, 3, 31, 0, 0x1F_FFFF_FFFF)] {
        assert_eq!(gone(&plain_state(), RVAAE1IS, xt, &entries), [false, true, true, false, true]);
    }
    assert_eq!(plain::look_up(&table_of(&entries), &plain_state(), 0, 0, u64::MAX).1.slot, 1);
}

/// 9.2: "Target 0 .. 2^55-1 has 2^43 pages". Sixteen steps of 2^33 bytes each, one behind the other.
#[test]
fn r9_2_the_judge_does_not_walk_pages() {
    let list: Vec<[u64; 3]> = (0..16).map(|i| [RVAAE1IS, operand(1, 3, 31, 0, i << 21), 0]).collect();
    let target = |last| Target { first: 0, last, ..m11_target() };
    assert_eq!(judge(&target((1 << 37) - 1), &list), ACCEPTED);
    assert_eq!(judge(&target(1 << 37), &list), witness(non_leaf(1, 1 << 37)));
    assert_eq!(judge(&target((1 << 55) - 1), &list), witness(non_leaf(-1, 1 << 48)));
    for wide in 0..2 {
        for granule in 1..=3 {
            let all = Target { wide, granule, leaves: 1, ..target((1 << 55) - 1) };
            assert_eq!(judge(&all, &list).0, 12);
        }
    }
}

/// 9.3: "The span just past a range that ends at 2^64 (or whose rounding up passes it) doesn't exist; nor one past the target's last."
#[test]
fn r9_3_rounding_up_past_2_to_the_64() {
    let target = Target { first: 0xFFFF_FFFF_FFFF_E000, last: u64::MAX, ..m11_target() };
    assert_eq!(judge(&target, &[[RVAAE1IS, operand(1, 0, 0, 0, 0x1F_FFFF_FFFE), 0]]), ACCEPTED);
    let last_page = [RVAAE1IS, 0x0000_401F_FFFF_FFFF, 0];
    assert_eq!(judge(&target, &[last_page]), witness(leaf(3, 0xFFFF_FFFF_FFFF_E000)));
    let one = Target { first: 0xFFFF_FFFF_FFFF_F000, ..target };
    assert_eq!(judge(&one, &[last_page]), ACCEPTED);
}

/// 9.4: "Two steps that touch leave no gap; a hole of one 4K page is no gap for the level 2 leaf".
#[test]
fn r9_4_union_over_steps() {
    let second = [RVAAE1IS, operand(1, 0, 0, 0, 0x40002), 0];
    assert_eq!(judge(&m11_target(), &[second, [RVAAE1IS, M1, 0]]), ACCEPTED);
    let behind_a_hole = [RVAAE1IS, operand(1, 0, 0, 0, 0x40003), 0];
    assert_eq!(judge(&m11_target(), &[behind_a_hole, [RVAAE1IS, M1, 0]]), witness(leaf(3, 0x4000_2000)));
}

/// 9.5: "the first level with a hole wins, not the lowest hole."
#[test]
fn r9_5_the_first_level_with_a_hole() {
    // The lowest hole is the level 3 leaf at 0x40000000; but no step meets the level 1 span at 0x80000000, and non-leaf comes first.
    let target = Target { last: 0x8000_0FFF, ..m11_target() };
    let list = [[RVAAE1IS, operand(1, 2, 31, 2, 0x40000), 0], [RVAAE1IS, operand(1, 0, 31, 0, 0x40001), 0]];
    assert_eq!(judge(&target, &list), witness(non_leaf(1, 0x8000_0000)));
    // "non-leaf level 2 goes only under TTL 00 or 11; leaf level 1 only under 00 or 01"
    let hint = |ttl| [RVAAE1IS, operand(1, 0, 1, ttl, 0x40000), 0];
    assert_eq!(judge(&m11_target(), &[hint(1), hint(2)]), witness(non_leaf(2, 0x4000_0000)));
    assert_eq!(judge(&m11_target(), &[hint(2), hint(3)]), witness(leaf(1, 0x4000_0000)));
    assert_eq!(judge(&m11_target(), &[hint(1), hint(3)]), witness(leaf(2, 0x4000_0000)));
}

/// 9.6: "TLBI TTL 00 with D128 and TLBIP TTL 00 both clear both widths; with hints each clears its own."
#[test]
fn r9_6_widths_in_one_list() {
    let tlbip = |ttl| [sysp(0, 2, 3), operand(1, 0, 1, ttl, 0), 0x40000];
    let tlbi = |ttl| [RVAAE1IS, operand(1, 0, 1, ttl, 0x40000), 0];
    for wide in 0..2 {
        let target = Target { wide, ..m11_target() };
        assert_eq!(judge(&target, &[tlbip(0)]), ACCEPTED);
        assert_eq!(judge(&target, &[tlbi(0)]), ACCEPTED);
        let (by_tlbip, by_tlbi) = (judge(&target, &[1, 2, 3].map(tlbip)), judge(&target, &[1, 2, 3].map(tlbi)));
        assert_eq!([by_tlbip.0, by_tlbi.0], if wide == 1 { [0, 12] } else { [12, 0] });
    }
}

/// 9.8: ""above" is `<` on signed numbers: an unsigned compare drops nothing at level -1 (or everything)."
#[test]
fn r9_8_level_minus_1() {
    assert!(goes(&plain_state(), RVAAE1IS, operand(1, 0, 0, 1, 0x40000), non_leaf(-1, 0)));
    assert!(!goes(&plain_state(), RVAAE1IS, operand(1, 0, 0, 1, 0x40000), non_leaf(1, 0x4000_0000)));
    for level in [-2, 4, 255, i64::MIN, i64::MAX] {
        for leaf in 0..2 {
            assert_eq!(plain::insert(&mut [0; 3], &Entry { level, leaf, ..page(0) }, 0).0, 8);
        }
    }
}

/// 9.9: "(NUM + 1) << (5 SCALE + 1) is up to 2^21 granules".
#[test]
fn r9_9_lengths() {
    for (scale, num) in [(0, 0), (0, 31), (1, 0), (2, 5), (3, 31)] {
        let end = (num + 1) << (5 * scale + 1) << 12;
        let entries = [page(end - 0x1000), page(end)];
        assert_eq!(gone(&plain_state(), RVAAE1IS, operand(1, scale, num, 0, 0), &entries), [true, false]);
    }
}

/// 9.10: "TTLB on a TLBIP is 0x14."
#[test]
fn r9_10_trap_numbers() {
    let state = State { hcr_ttlb: 1, d128: 1, ..with_el2(1) };
    assert_eq!(answer2(&state, sysp(0, 2, 3), M1, 0), (4, 0x14));
    assert_eq!(answer2(&state, sys(0, 2, 3), M1, 0), (4, 0x18));
}

/// 9.11: "VMID and ASID compare in 16 bits; 0xFFFF is an ordinary value."
#[test]
fn r9_11_16_bits() {
    let state = State { vmid: 0xFFFF, ..with_el2(1) };
    let of = |vmid, asid| Entry { vmid, asid, ..page(0x4000_0000) };
    let entries = [of(0xFFFF, 0xFFFF), of(0xFF, 0xFFFF), of(0xFFFF, 0xFF)];
    assert_eq!(gone(&state, sys(0, 6, 1), M1 | 0xFFFF << 48, &entries), [true, false, false]);
}

/// 9.12: "the numbers of other processors' domains may be anything".
#[test]
fn r9_12_domain_numbers() {
    let state = State { count: 3, own: 2, inner: [255, 7, 255, 0, 0, 0, 0, 0], outer: [200; 8], ..plain_state() };
    let entries = [0, 1, 2].map(|processor| Entry { processor, ..page(0x4000_0000) });
    assert_eq!(gone(&state, RVAAE1IS, M1, &entries), [true, false, true]);
}
