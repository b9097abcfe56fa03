//! READINGS 5: entries and what goes.

use super::*;
use crate::plain::record::Slot;

const PAGE: u64 = 0x4000_0000;

fn is_legal(entry: Entry) -> bool {
    let mut table = [0; 3];
    let (number, _) = plain::insert(&mut table, &entry, 7);
    assert!(number == 0 || number == 8);
    if number == 0 {
        // "a slot that insert wrote reads back as every field and the output word it was given"
        assert_eq!(plain::read_slot(&table, 0), (0, Slot { entry, output: 7 }));
    } else {
        assert_eq!(table, [0; 3]);
    }
    number == 0
}

/// 5.1: "every non-leaf above and a block half outside the range go."
#[test]
fn r5_1_meeting_is_overlap() {
    let entries = [non_leaf(-1, 0), non_leaf(0, 0), non_leaf(1, PAGE), non_leaf(2, PAGE), leaf(2, PAGE), leaf(2, 0x3FE0_0000)];
    // The last page of the block at 0x3FE00000 and the first of the one at 0x40000000.
    let xt = operand(1, 0, 0, 0, 0x3FFFF);
    assert_eq!(gone(&plain_state(), RVAAE1IS, xt, &entries), [true; 6]);
    assert_eq!(gone(&plain_state(), RVAAE1IS, M1, &entries), [true, true, true, true, true, false]);
}

/// 5.2: "A leaf above the hint's level stays, a non-leaf at it stays, another width stays."
#[test]
fn r5_2_ttl_not_00() {
    let state = State { d128: 1, ..plain_state() };
    let ttl_10 = operand(1, 0, 0, 2, 0x40000);
    let entries = [leaf(1, PAGE), leaf(2, PAGE), leaf(3, PAGE), Entry { wide: 1, ..leaf(2, PAGE) }];
    assert_eq!(gone(&state, RVAAE1IS, ttl_10, &entries), [false, true, false, false]);
    let entries = [non_leaf(-1, 0), non_leaf(0, 0), non_leaf(1, PAGE), non_leaf(2, PAGE)];
    assert_eq!(gone(&state, RVAAE1IS, ttl_10, &entries), [true, true, true, false]);
    assert!(!goes(&state, RVAAE1IS, ttl_10, Entry { wide: 1, ..non_leaf(1, PAGE) }));
}

/// 5.3: "TLBI on a 128-bit entry: D128 must be present. The span is the entry's own (by its width)."
#[test]
fn r5_3_another_width() {
    let d128 = State { d128: 1, ..plain_state() };
    let wide = Entry { wide: 1, ..page(PAGE) };
    assert!(!goes(&plain_state(), RVAAE1IS, M1, wide));
    assert!(goes(&d128, RVAAE1IS, M1, wide));
    assert!(goes2(&d128, sysp(0, 2, 3), operand(1, 0, 0, 0, 0), PAGE >> 12, page(PAGE)));
    assert!(!goes2(&d128, sysp(0, 2, 3), operand(1, 0, 0, 3, 0), PAGE >> 12, page(PAGE)));
    // Level 2 spans 2^21 in 64-bit and 2^20 in 128-bit: only the first holds 0x40100000.
    let level_2 = [leaf(2, PAGE), Entry { wide: 1, ..leaf(2, PAGE) }];
    assert_eq!(gone(&d128, RVAAE1IS, operand(1, 0, 0, 0, 0x40100), &level_2), [true, false]);
}

/// 5.4: "non-leaf entries need the ASID. A global leaf may hold any ASID value, goes for every ASID, is found for every ASID."
#[test]
fn r5_4_global() {
    let rvae1 = sys(0, 6, 1);
    let global = Entry { global: 1, asid: 9, ..page(PAGE) };
    let entries = [global, Entry { asid: 9, ..page(PAGE) }, Entry { asid: 9, ..non_leaf(2, PAGE) }, non_leaf(2, PAGE)];
    assert_eq!(gone(&plain_state(), rvae1, M1, &entries), [true, false, false, true]);
    assert_eq!(plain::look_up(&table_of(&entries), &plain_state(), 0, 3, PAGE).1.examined, 1);
    assert_eq!(plain::look_up(&table_of(&entries[1..]), &plain_state(), 0, 3, PAGE).0, 14);
    assert_eq!(plain::look_up(&table_of(&entries[1..]), &plain_state(), 0, 9, PAGE).1.output, 100);
    assert!(!is_legal(Entry { global: 1, ..non_leaf(2, PAGE) }));
}

/// 5.5: "an NXS name keeps a non-leaf entry with XS 1."
#[test]
fn r5_5_xs_on_non_leaf_entries() {
    let state = State { xs: 1, ..plain_state() };
    let entries = [Entry { xs: 1, ..non_leaf(1, PAGE) }, non_leaf(1, PAGE), Entry { xs: 1, ..page(PAGE) }, page(PAGE)];
    assert_eq!(gone(&state, nxs(RVAAE1IS), M1, &entries), [false, true, false, true]);
    assert_eq!(gone(&state, RVAAE1IS, M1, &entries), [true; 4]);
}

/// 5.6: "128-bit entries without D128, 16K level 1 leaves without LPA2, processor 7 on a board of 1, Realm without RME are all legal".
#[test]
fn r5_6_legality_does_not_depend_on_a_state() {
    assert!(is_legal(Entry { wide: 1, ..page(PAGE) }));
    assert!(is_legal(Entry { granule: 2, ..leaf(1, 0) }));
    assert!(is_legal(Entry { processor: 7, ..page(PAGE) }));
    assert!(is_legal(Entry { security: 2, ..page(PAGE) }));
}

/// 5.7: "16K 64-bit level -1, 64K 64-bit levels -1 and 0, 64K 128-bit level -1 have none: illegal. 16K 128-bit level -1 (2^54) and
/// 64K 128-bit level 0 (2^52) non-leaf are legal."
#[test]
fn r5_7_spans() {
    let of = |wide, granule, level| is_legal(Entry { wide, granule, ..non_leaf(level, 0) });
    assert_eq!([of(0, 2, -1), of(0, 3, -1), of(0, 3, 0), of(1, 3, -1)], [false; 4]);
    assert_eq!([of(1, 2, -1), of(1, 3, 0), of(0, 1, -1), of(0, 2, 0)], [true; 4]);
}

/// 01's span table: a base of one span is legal and one of half a span is not.
#[test]
fn the_span_table() {
    let table: [[[u32; 5]; 3]; 2] = [
        [[48, 39, 30, 21, 12], [0, 47, 36, 25, 14], [0, 0, 42, 29, 16]],
        [[44, 36, 28, 20, 12], [54, 44, 34, 24, 14], [0, 52, 40, 28, 16]],
    ];
    for (wide, granules) in table.iter().enumerate() {
        for (granule, exponents) in granules.iter().enumerate() {
            for (place, exponent) in exponents.iter().enumerate().filter(|(_, exponent)| **exponent > 0) {
                let level = place as i64 - 1;
                let of = |base| Entry { wide: wide as u64, granule: granule as u64 + 1, leaf: u64::from(level == 3), ..leaf(level, base) };
                assert!(is_legal(of(1 << exponent)));
                assert!(!is_legal(of(1 << (exponent - 1))));
            }
        }
    }
}

/// 5.8: "low half ends at 2^55. EL2, EL3, stage 2: below 2^56, so 0x0080_0000_0000_0000 is fine there and illegal in EL1&0 stage 1."
#[test]
fn r5_8_address_rule() {
    let two = |regime, base| is_legal(Entry { regime, ..page(base) });
    for regime in 0..2 {
        assert!(two(regime, (1 << 55) - 0x1000));
        assert!(!two(regime, 1 << 55));
        assert!(!two(regime, 0x0080_0000_0000_0000));
        assert!(!two(regime, 0xFF7F_FFFF_FFFF_F000));
        assert!(two(regime, 0xFF80_0000_0000_0000));
        assert!(two(regime, 0xFFFF_FFFF_FFFF_F000));
    }
    let one = |base| {
        [
            is_legal(Entry { regime: 2, ..page(base) }),
            is_legal(Entry { regime: 3, security: 0, ..page(base) }),
            is_legal(Entry { stage2: 1, ..page(base) }),
        ]
    };
    assert_eq!(one(0x0080_0000_0000_0000), [true; 3]);
    assert_eq!(one(0x00FF_FFFF_FFFF_F000), [true; 3]);
    assert_eq!(one(0x0100_0000_0000_0000), [false; 3]);
    assert_eq!(one(0xFFFF_FFFF_FFFF_F000), [false; 3]);
}

/// 5.9: "Processor at or above the count never goes, never is found, but holds its slot."
#[test]
fn r5_9_processor_at_or_above_the_count() {
    let entry = Entry { processor: 1, ..page(PAGE) };
    assert!(!goes(&plain_state(), RVAAE1IS, M1, entry));
    assert!(goes(&State { count: 2, ..plain_state() }, RVAAE1IS, M1, entry));
    let mut table = table_of(&[entry]);
    assert_eq!(plain::look_up(&table, &plain_state(), 0, 0, PAGE).0, 14);
    assert_eq!(plain::insert(&mut table, &page(0), 0).0, 9);
    // "of the own processor"
    let own_1 = State { count: 2, own: 1, ..plain_state() };
    assert_eq!(plain::look_up(&table, &own_1, 0, 0, PAGE).0, 0);
    assert_eq!(plain::look_up(&table, &State { own: 0, ..own_1 }, 0, 0, PAGE).0, 14);
}

/// 5.10: "Any slot whose decoded fields break a rule, or with unused tag bits set, or (base, 0, 0), (0, 0, out): reads as empty, is taken
/// by insert, is never zeroed by execution, isn't counted as dropped, is counted as examined."
#[test]
fn r5_10_senseless_slots() {
    let good = table_of(&[page(PAGE)]);
    let (base, tag) = (good[0], good[1]);
    let mut senseless = vec![[base, 0, 0], [0, 0, 5], [base, 0, 5], [base + 1, tag, 5], [base, u64::MAX, u64::MAX]];
    senseless.extend((54..64).map(|bit| [base, tag | 1 << bit, 5]));
    senseless.extend((0..4).map(|bit| [base, tag ^ 1 << bit, 5]));
    // Heights 5 to 7; a level 0 leaf; a VMID in EL2; Root in EL1&0; granule 0.
    senseless.extend((5..8).map(|height| [base, tag | height << 46, 5]));
    let level_0 = [0, tag | 3 << 46, 5];
    senseless.extend([level_0, [base, tag | 2 << 4 | 1 << 8, 5], [base, tag | 3 << 6, 5], [base, tag & !(3 << 26), 5]]);
    for slot in senseless {
        let mut table = slot.to_vec();
        table.extend_from_slice(&good);
        let before = table.clone();
        assert_eq!(plain::read_slot(&table, 0), (14, Slot::default()), "{:x?}", slot);
        assert_eq!(plain::read_slot(&table, 1).0, 0);
        let (_, found) = plain::look_up(&table, &plain_state(), 0, 0, PAGE);
        assert_eq!((found.slot, found.output, found.examined), (1, 100, 2));
        let (_, executed) = plain::execute(&mut table, &plain_state(), RVAAE1IS, operand(1, 3, 31, 0, 0), 0);
        assert_eq!(executed.dropped, 1);
        assert_eq!((&table[..3], &table[3..]), (&before[..3], &[0; 3][..]));
        table = before;
        assert_eq!(plain::insert(&mut table, &page(0), 0).1.slot, 0);
    }
}

/// TAG.md: the places of the fields.
#[test]
fn the_layout_of_a_tag() {
    let entry = Entry { asid: 0xABCD, vmid: 0x1234, xs: 1, processor: 5, ..page(PAGE) };
    let tag = 1 | 1 << 6 | 0x1234 << 8 | 1 << 26 | 0xABCD << 28 | 1 << 49 | 1 << 50 | 5 << 51;
    assert_eq!(table_of(&[entry]), [PAGE, tag, 100]);
    let stage2 = Entry { stage2: 1, ns: 1, security: 0, granule: 3, wide: 1, ..non_leaf(0, 1 << 52) };
    assert_eq!(table_of(&[stage2]), [1 << 52, 1 | 1 << 24 | 1 << 25 | 3 << 26 | 1 << 45 | 3 << 46, 100]);
    let global = Entry { global: 1, regime: 1, ..leaf(1, PAGE) };
    assert_eq!(table_of(&[global])[1], 1 | 1 << 4 | 1 << 6 | 1 << 26 | 1 << 44 | 2 << 46 | 1 << 49);
}

/// 5.11: "Duplicates: each slot counts by itself." 5.12: "granule must be TG even for a non-leaf entry with TTL 00."
#[test]
fn r5_11_duplicates_and_r5_12_granule() {
    assert_eq!(gone(&plain_state(), RVAAE1IS, M1, &[page(PAGE), page(PAGE), page(PAGE)]), [true; 3]);
    let others = [Entry { granule: 2, ..non_leaf(1, 0) }, Entry { granule: 3, ..non_leaf(1, 0) }, non_leaf(1, PAGE)];
    assert_eq!(gone(&plain_state(), RVAAE1IS, M1, &others), [false, false, true]);
}

/// "it is a leaf if the name has L".
#[test]
fn names_with_l() {
    let entries = [non_leaf(1, PAGE), leaf(1, PAGE), leaf(3, PAGE)];
    assert_eq!(gone(&plain_state(), sys(0, 2, 7), M1, &entries), [false, true, true]);
    assert_eq!(gone(&plain_state(), sys(0, 2, 5), M1, &entries), [false, true, true]);
    let at_el2 = entries.map(|e| Entry { regime: 2, ..e });
    assert_eq!(gone(&with_el2(2), sys(4, 2, 5), M1, &at_el2), [false, true, true]);
    let stage2 = entries.map(|e| Entry { stage2: 1, ..e });
    assert_eq!(gone(&with_el2(2), sys(4, 0, 6), M1, &stage2), [false, true, true]);
    assert_eq!(gone(&with_el2(2), sys(4, 0, 2), M1, &stage2), [true, true, true]);
    let at_el3_ = entries.map(|e| Entry { regime: 3, security: 0, ..e });
    assert_eq!(gone(&at_el3(1), sys(6, 2, 5), M1, &at_el3_), [false, true, true]);
}

/// "its processor is below the count and reached (own number; same inner; same outer domain)".
#[test]
fn reach() {
    let mut state = State { count: 4, own: 1, tlbios: 1, ..plain_state() };
    state.inner = [3, 5, 5, 9, 5, 5, 5, 5];
    state.outer = [2, 7, 7, 7, 7, 7, 7, 7];
    let entries: Vec<Entry> = (0..8).map(|processor| Entry { processor, ..page(PAGE) }).collect();
    let by = |crm| gone(&state, sys(0, crm, 3), M1, &entries);
    assert_eq!(by(6), [false, true, false, false, false, false, false, false]);
    assert_eq!(by(2), [false, true, true, false, false, false, false, false]);
    assert_eq!(by(5), [false, true, true, true, false, false, false, false]);
}

/// "the lowest slot with a stage 1 leaf ... whose span holds the address".
#[test]
fn lookups_take_stage_1_leaves() {
    let table = table_of(&[non_leaf(2, PAGE), Entry { stage2: 1, ..page(PAGE) }, leaf(2, PAGE), page(PAGE)]);
    let (number, found) = plain::look_up(&table, &plain_state(), 0, 0, PAGE + 0xFFF);
    assert_eq!((number, found.slot, found.output, found.examined), (0, 2, 102, 3));
    assert_eq!(plain::look_up(&table, &plain_state(), 0, 0, PAGE + 0x1F_FFFF).1.slot, 2);
    assert_eq!(plain::look_up(&table, &plain_state(), 0, 0, PAGE + 0x20_0000).1.examined, 4);
    // "or the regime has none": in EL2 any ASID will do.
    let el2 = table_of(&[Entry { regime: 2, ..page(PAGE) }]);
    assert_eq!(plain::look_up(&el2, &plain_state(), 2, 0xFFFF, PAGE).0, 0);
}
