//! READINGS 4: operands.

use super::*;
use crate::plain::record::{Fields, Told, Words};

const TLBI: Told = Told { tlbip: 0, form: 1, lpa2: 0, unit64k: 0 };
const TLBIP: Told = Told { tlbip: 1, ..TLBI };

fn read_base(told: &Told, xt: u64, xt2: u64) -> u64 {
    let (number, fields) = plain::read_operand(told, xt, xt2);
    assert_eq!(number, 0);
    fields.base
}

fn of_granule(granule: u64, entry: Entry) -> Entry {
    Entry { granule, ..entry }
}

/// 4.1: "TLBIP RVAE2 at EL2, D128, no LPA2, TG 10, TTL 01, base 0x4000: answer 0, any level, both widths".
#[test]
fn r4_1_16k_ttl_01_without_lpa2_under_tlbip() {
    let state = State { d128: 1, ..with_el2(2) };
    let xt = operand(2, 0, 0, 1, 0);
    let el2 = |wide, level, base| Entry { regime: 2, wide, ..of_granule(2, leaf(level, base)) };
    let entries = [el2(0, 3, 0x4000), el2(1, 3, 0x4000), el2(0, 2, 0), el2(1, 1, 0), el2(1, 3, 0)];
    assert_eq!(gone2(&state, sysp(4, 6, 1), xt, 4, &entries), [true, true, true, true, false]);
    let lpa2 = State { lpa2: 1, ..state };
    assert_eq!(answer2(&lpa2, sysp(4, 6, 1), xt, 4), (7, 0));
}

/// 4.2: "TLBIP, 64K, TTL 11, Xt2 = 1: answer 0, range from 0."
#[test]
fn r4_2_tlbip_bits_below_the_granule() {
    let state = State { d128: 1, ..plain_state() };
    let entries = [0, 0x10000, 0x20000].map(|base| Entry { wide: 1, ..of_granule(3, page(base)) });
    assert_eq!(gone2(&state, sysp(0, 2, 3), operand(3, 0, 0, 3, 0), 1, &entries), [true, true, false]);
}

/// 4.3: "LPA2, TG 10, TTL 01, base 0x4000 -> 0; level 1 leaf at 0 goes"; "TLBIP's twin does check (2^34)".
#[test]
fn r4_3_16k_ttl_01_with_lpa2() {
    let state = State { lpa2: 1, d128: 1, ..plain_state() };
    assert!(goes(&state, RVAAE1IS, operand(2, 0, 0, 1, 1), of_granule(2, leaf(1, 0))));
    let twin = |base: u64| answer2(&state, sysp(0, 2, 3), operand(2, 0, 0, 1, 0), base >> 12).0;
    assert_eq!([twin(0x4000), twin(1 << 33), twin(1 << 34)], [7, 7, 0]);
}

/// 4.4: "TLBI TTL 11 is never 7; 64K TTL 01 wants 2^42, 64K 10 wants 2^29", and 01's list.
#[test]
fn r4_4_alignment_of_tlbi() {
    for (tg, ttl, exponent) in [(1, 1, 30), (1, 2, 21), (2, 2, 25), (3, 1, 42), (3, 2, 29)] {
        let unit = 10 + 2 * tg;
        let of = |base: u64| answer(&plain_state(), RVAAE1IS, operand(tg, 0, 0, ttl, base >> unit));
        assert_eq!([of(0), of(1 << exponent), of(1 << (exponent - 1)), of(1 << unit)], [0, 0, 7, 7]);
    }
    for tg in 1..=3 {
        assert_eq!(answer(&plain_state(), RVAAE1IS, operand(tg, 0, 0, 3, 1)), 0);
        assert_eq!(answer(&plain_state(), RVAAE1IS, operand(tg, 0, 0, 0, 1)), 0);
    }
}

/// "TLBIP: base not a multiple of the 128-bit span of TTL 01, 10 or 11 (000)", spans by 01's table.
#[test]
fn alignment_of_tlbip() {
    let state = State { lpa2: 1, d128: 1, ..plain_state() };
    for (tg, ttl, exponent) in [(1, 1, 28), (1, 2, 20), (2, 1, 34), (2, 2, 24), (3, 1, 40), (3, 2, 28)] {
        let of = |base: u64| answer2(&state, sysp(0, 2, 3), operand(tg, 0, 0, ttl, 0), base >> 12).0;
        assert_eq!([of(0), of(1 << exponent), of(1 << (exponent - 1))], [0, 0, 7]);
    }
}

/// 4.5: "m7: two 4K pages, not two times 64K."
#[test]
fn r4_5_the_unit_scales_the_base_only() {
    let state = State { lpa2: 1, ds_el1: 1, ..plain_state() };
    let entries = [page(0x10000), page(0x11000), page(0x12000)];
    assert_eq!(gone(&state, RVAAE1IS, operand(1, 0, 0, 0, 1), &entries), [true, true, false]);
}

/// 4.6: "LPA2, DS, TG 4K, field 0x1000000000 (bit 36): base 0xFFF0_0000_0000_0000; without DS 0xFFFF_0000_0000_0000. Field bit 35 only,
/// with DS: 0x0008_0000_0000_0000, not extended." TLBIP: bit 55.
#[test]
fn r4_6_the_top_bit_is_copied() {
    let unit = Told { lpa2: 1, unit64k: 1, ..TLBI };
    let xt = operand(1, 0, 0, 0, 0x10_0000_0000);
    assert_eq!(read_base(&unit, xt, 0), 0xFFF0_0000_0000_0000);
    assert_eq!(read_base(&TLBI, xt, 0), 0xFFFF_0000_0000_0000);
    assert_eq!(read_base(&unit, operand(1, 0, 0, 0, 0x8_0000_0000), 0), 0x0008_0000_0000_0000);
    // 16K: bit 50; 64K: bit 52.
    assert_eq!(read_base(&TLBI, operand(2, 0, 0, 0, 0x10_0000_0000), 0), 0xFFFC_0000_0000_0000);
    assert_eq!(read_base(&TLBI, operand(3, 0, 0, 0, 0x10_0000_0000), 0), 0xFFF0_0000_0000_0000);
    assert_eq!(read_base(&TLBIP, operand(1, 0, 0, 0, 0), 1 << 43), 0xFF80_0000_0000_0000);
    assert_eq!(read_base(&TLBIP, operand(1, 0, 0, 0, 0), 1 << 42), 0x0040_0000_0000_0000);
    // "others extend by zero"
    for form in 2..=4 {
        assert_eq!(read_base(&Told { form, ..TLBI }, xt, 0), 0x0001_0000_0000_0000);
        assert_eq!(read_base(&Told { form, ..TLBIP }, operand(1, 0, 0, 0, 0), 1 << 43), 0x0080_0000_0000_0000);
    }
}

/// 4.7: "EL2, {E2H,TGE} 11, LPA2, DS of EL1 0, DS of EL2 1, RVAAE1IS with m7's word: 0x40000000", and which DS is whose.
#[test]
fn r4_7_which_ds() {
    let m7 = 0x0000_4000_0000_4000;
    let goes_at = |state: &State, word, entry: Entry| {
        let at = |base| goes(state, word, m7, Entry { base, ..entry });
        (at(0x4000_0000), at(0x0400_0000))
    };
    let host = State { hcr_e2h: 1, hcr_tge: 1, lpa2: 1, ..with_el2(2) };
    let el20 = Entry { regime: 1, ..page(0) };
    assert_eq!(goes_at(&State { ds_el2: 1, ..host }, RVAAE1IS, el20), (true, false));
    assert_eq!(goes_at(&State { ds_el1: 1, ..host }, RVAAE1IS, el20), (false, true));
    assert_eq!(goes_at(&State { ds_el2: 1, ..host }, sys(4, 6, 1), el20), (true, false));
    let el3 = State { lpa2: 1, ds_el3: 1, ..at_el3(1) };
    assert_eq!(goes_at(&el3, sys(6, 6, 1), Entry { regime: 3, security: 0, ..page(0) }), (true, false));
    let stage2 = Entry { stage2: 1, ..page(0) };
    assert_eq!(goes_at(&State { lpa2: 1, ds_stage2: 1, ..with_el2(2) }, sys(4, 4, 2), stage2), (true, false));
    assert_eq!(goes_at(&State { lpa2: 1, ds_el1: 1, ..with_el2(2) }, sys(4, 4, 2), stage2), (false, true));
    // The unit wants LPA2 too.
    assert_eq!(goes_at(&State { ds_el1: 1, ..plain_state() }, RVAAE1IS, page(0)), (false, true));
}

/// 4.8: "TLBI field 0xFFFFFFFFF (bit 36 clear), NUM 0: 0x0000_FFFF_FFFF_F000 .. 0x0001_0000_0000_0FFF; a page at 2^48 goes."
#[test]
fn r4_8_no_cut_at_a_halfs_end() {
    let entries = [0xFFFF_FFFF_E000, 0xFFFF_FFFF_F000, 1 << 48, (1 << 48) + 0x1000].map(page);
    let xt = operand(1, 0, 0, 0, 0xF_FFFF_FFFF);
    assert_eq!(gone(&plain_state(), RVAAE1IS, xt, &entries), [false, true, true, false]);
}

/// 4.9: "Bit 63 of a RIPAS2 operand counts only in Secure state; else it is ignored, and the IPA space is 0".
#[test]
fn r4_9_ns_when_not_secure() {
    let ripas2 = sys(4, 4, 2);
    let of = |security, ns| Entry { stage2: 1, security, ns, ..page(0x4000_0000) };
    let secure = State { sel2: 1, scr_eel2: 1, ..at_el3(0) };
    assert_eq!(gone(&secure, ripas2, M1, &[of(0, 0), of(0, 1)]), [true, false]);
    assert_eq!(gone(&secure, ripas2, M1 | 1 << 63, &[of(0, 0), of(0, 1)]), [false, true]);
    assert!(goes(&at_el3(1), ripas2, M1 | 1 << 63, of(1, 0)));
    let realm = State { rme: 1, scr_nse: 1, ..at_el3(1) };
    assert!(goes(&realm, ripas2, M1 | 1 << 63, of(2, 0)));
}

/// 4.10: "RVAE1 and RVALE1 in EL1&0 and in EL2&0; RVAE2 and RVALE2 in EL2&0 only. In EL2, EL3, RVAA*, RIPAS2 the bits are ignored".
#[test]
fn r4_10_where_the_asid_field_is_used() {
    let with = |asid: u64| M1 | asid << 48;
    let of = |regime, asid| Entry { regime, asid, ..page(0x4000_0000) };
    let host = State { hcr_e2h: 1, hcr_tge: 1, ..with_el2(2) };
    for op2 in [1, 5] {
        assert_eq!(gone(&plain_state(), sys(0, 6, op2), with(5), &[of(0, 5), of(0, 6)]), [true, false]);
        assert_eq!(gone(&host, sys(0, 6, op2), with(5), &[of(1, 5), of(1, 6)]), [true, false]);
        assert_eq!(gone(&State { hcr_tge: 0, ..host }, sys(4, 6, op2), with(5), &[of(1, 5), of(1, 6)]), [true, false]);
        assert!(goes(&with_el2(2), sys(4, 6, op2), with(5), of(2, 0)));
        assert!(goes(&at_el3(1), sys(6, 6, op2), with(5), Entry { security: 0, ..of(3, 0) }));
    }
    for op2 in [3, 7] {
        assert!(goes(&plain_state(), sys(0, 6, op2), with(5), of(0, 6)));
        assert!(goes(&host, sys(0, 6, op2), with(5), of(1, 6)));
    }
    assert!(goes(&with_el2(2), sys(4, 4, 2), with(5), Entry { stage2: 1, ..of(0, 0) }));
}

/// 4.11: "Unit under TLBIP: none; the unit flag alone decides the unit, LPA2 alone decides the TTL 01 rule".
#[test]
fn r4_11_unit_and_lpa2_apart() {
    assert_eq!(read_base(&Told { unit64k: 1, ..TLBIP }, operand(1, 0, 0, 0, 0), 1), 0x1000);
    assert_eq!(read_base(&Told { unit64k: 1, ..TLBI }, operand(1, 0, 0, 0, 1), 0), 0x10000);
    assert_eq!(read_base(&Told { lpa2: 1, ..TLBI }, operand(1, 0, 0, 0, 1), 0), 0x1000);
    for tlbip in 0..2 {
        let ttl = |lpa2, unit64k| plain::read_operand(&Told { tlbip, form: 1, lpa2, unit64k }, operand(2, 0, 0, 1, 0), 0).1.ttl;
        assert_eq!([ttl(0, 0), ttl(0, 1), ttl(1, 0), ttl(1, 1)], [0, 0, 1, 1]);
    }
}

fn fields(base: u64) -> Fields {
    Fields { tg: 1, base, ..Fields::default() }
}

fn written(told: &Told, fields: &Fields) -> u32 {
    let (number, words) = plain::write_operand(told, fields);
    assert!(number == 0 || words == Words::default());
    number
}

/// 4.12: the writer's 8, and that it "doesn't know of 7"; "Xt2 of a TLBI is 0."
#[test]
fn r4_12_writer() {
    let unit = Told { unit64k: 1, ..TLBI };
    assert_eq!([written(&unit, &fields(0x1000)), written(&unit, &fields(0x10000))], [8, 0]);
    let of_64k = |base| Fields { tg: 3, ..fields(base) };
    assert_eq!([written(&TLBIP, &of_64k(0x1000)), written(&TLBIP, &of_64k(0x10000))], [8, 0]);
    assert_eq!([written(&TLBIP, &fields(0x800)), written(&TLBIP, &fields(0x1000))], [8, 0]);
    assert_eq!(written(&TLBI, &fields(0x0001_0000_0000_0000)), 8);
    assert_eq!(written(&TLBI, &fields(0xFFFF_0000_0000_0000)), 0);
    assert_eq!(written(&Told { form: 2, ..TLBI }, &fields(0x0001_0000_0000_0000)), 0);
    assert_eq!(written(&Told { form: 2, ..TLBI }, &fields(0xFFFF_0000_0000_0000)), 8);
    for form in 0..5 {
        let told = Told { form, ..TLBI };
        assert_eq!(written(&told, &Fields { asid: 1, ..fields(0) }), if form == 0 { 0 } else { 8 });
        assert_eq!(written(&told, &Fields { ns: 1, ..fields(0) }), if form == 3 { 0 } else { 8 });
    }
    let seven = Fields { ttl: 1, ..fields(0x1000) };
    assert_eq!(plain::write_operand(&TLBI, &seven), (0, Words { xt: operand(1, 0, 0, 1, 1), xt2: 0 }));
}

/// "it gives 8 if a field doesn't fit, TG is 00, ..., TTL is 01 where that reads as 00".
#[test]
fn the_writers_other_8s() {
    let told = Told { form: 0, ..TLBI };
    let secure = Told { form: 3, ..TLBI };
    let bad = [
        Fields { asid: 0x10000, ..fields(0) },
        Fields { tg: 0, ..fields(0) },
        Fields { tg: 4, ..fields(0) },
        Fields { scale: 4, ..fields(0) },
        Fields { num: 32, ..fields(0) },
        Fields { ttl: 4, ..fields(0) },
        Fields { tg: 2, ttl: 1, ..fields(0) },
    ];
    for f in bad {
        assert_eq!(written(&told, &f), 8, "{:?}", f);
    }
    assert_eq!(written(&secure, &Fields { ns: 2, ..fields(0) }), 8);
    assert_eq!(written(&Told { lpa2: 1, ..told }, &Fields { tg: 2, ttl: 1, ..fields(0) }), 0);
    assert_eq!(written(&Told { lpa2: 1, ..TLBIP }, &Fields { tg: 2, ttl: 1, ..fields(0) }), 0);
    let most = Fields { asid: 0xFFFF, ns: 0, tg: 3, scale: 3, num: 31, ttl: 3, base: 0xFFFF_FFFF_FFFF_0000 };
    assert_eq!(plain::write_operand(&told, &most), (0, Words { xt: u64::MAX, xt2: 0 }));
}

/// 4.13: "Reader never gives 7, never 8; only 6."
#[test]
fn r4_13_reader() {
    assert_eq!(plain::read_operand(&TLBI, 0x0000_0000_0004_0000, 0), (6, Fields::default()));
    assert_eq!(plain::read_operand(&TLBI, 0x0000_4040_0004_0001, 0).0, 0);
    let all = Fields { asid: 0, ns: 0, tg: 3, scale: 3, num: 31, ttl: 3, base: 0xFFFF_FFFF_FFFF_0000 };
    assert_eq!(plain::read_operand(&TLBI, u64::MAX, u64::MAX), (0, all));
    assert_eq!(plain::read_operand(&Told { form: 0, ..TLBI }, u64::MAX, 0), (0, Fields { asid: 0xFFFF, ..all }));
    assert_eq!(plain::read_operand(&Told { form: 3, ..TLBI }, u64::MAX, 0).1.ns, 1);
    assert_eq!(plain::read_operand(&Told { form: 4, ..TLBI }, u64::MAX, 0).1.ns, 0);
}

/// 4.14 and "Writing what was read gives the word with RES0 bits, ignored bits and such a TTL cleared."
#[test]
fn r4_14_writing_what_was_read() {
    let mut seed = 0x1234_5678_9ABC_DEF1u64;
    for _ in 0..20_000 {
        let mut next = || {
            seed ^= seed << 13;
            seed ^= seed >> 7;
            seed ^= seed << 17;
            seed
        };
        let (xt, xt2, pick) = (next(), next(), next());
        let told = Told { tlbip: pick & 1, form: (pick >> 1) % 5, lpa2: pick >> 20 & 1, unit64k: pick >> 21 & 1 };
        let tg = xt >> 46 & 3;
        let (number, fields) = plain::read_operand(&told, xt, xt2);
        assert_eq!(number, if tg == 0 { 6 } else { 0 });
        if tg != 0 {
            assert_eq!(plain::write_operand(&told, &fields), (0, cleared(&told, tg, xt, xt2)));
        }
    }
}

/// 4.14: "Xt 36:0 under TLBIP, Xt2 63:44, bits below the granule, 63:48 (or 62:48) where not used."
fn cleared(told: &Told, tg: u64, xt: u64, xt2: u64) -> Words {
    let top = [0xFFFF << 48, 0, 0, 1 << 63, 0][told.form as usize];
    let low = if told.tlbip == 1 { 0 } else { (1 << 37) - 1 };
    let mut kept = top | low | 0x7FF << 37;
    if tg == 2 && xt >> 37 & 3 == 1 && told.lpa2 == 0 {
        kept &= !(3 << 37);
    }
    let below_granule = [0, 0, 3, 15][tg as usize];
    let xt2 = if told.tlbip == 1 { xt2 & ((1 << 44) - 1) & !below_granule } else { 0 };
    Words { xt: xt & kept, xt2 }
}

/// 4.15: "SCALE 3, NUM 31, 64K is 2^37 bytes, the longest."
#[test]
fn r4_15_the_longest_range() {
    let entries = [0, (1 << 37) - 0x10000, 1 << 37].map(|base| of_granule(3, page(base)));
    assert_eq!(gone(&plain_state(), RVAAE1IS, operand(3, 3, 31, 0, 0), &entries), [true, true, false]);
}

/// "8 if told has a value that no field can have", before 6.
#[test]
fn a_bad_told_is_8() {
    for told in [Told { tlbip: 2, ..TLBI }, Told { form: 5, ..TLBI }, Told { lpa2: 2, ..TLBI }, Told { unit64k: 2, ..TLBI }] {
        assert_eq!(plain::read_operand(&told, 0, 0), (8, Fields::default()));
        assert_eq!(plain::write_operand(&told, &fields(0)), (8, Words::default()));
    }
}
