//! READINGS 7: listing.

use super::*;
use crate::plain::record::Listed;

fn code(words: &[u32]) -> Vec<u8> {
    words.iter().flat_map(|word| word.to_le_bytes()).collect()
}

fn text(words: &[u32]) -> String {
    let bytes = code(words);
    let (listed, text) = plain::list(&bytes, 0, usize::MAX);
    assert_eq!(listed, Listed { used: bytes.len() as u64, written: text.len() as u64 });
    String::from_utf8(text).unwrap()
}

/// 01: "Words D5088260, D503201F, D50E85A0, D54C8620, then one byte, give exactly".
#[test]
fn the_example_of_01() {
    let mut bytes = code(&[0xD508_8260, 0xD503_201F, 0xD50E_85A0, 0xD54C_8620]);
    bytes.push(0x60);
    let (listed, mut text) = plain::list(&bytes, 0, 1000);
    assert_eq!(listed, Listed { used: 16, written: text.len() as u64 });
    text.extend(plain::tail(bytes.len() - 16, 1000));
    let expected = "0 TLBI RVAAE1IS, X0\n8 TLBI RVALE3OS, X0\n12 TLBIP RVAE2, X0, X1\ntail 1\n";
    assert_eq!(String::from_utf8(text).unwrap(), expected);
}

/// 7.1: "Empty input prints nothing. 1 to 3 bytes print only "tail n"."
#[test]
fn r7_1_short_input() {
    for left in 0..4 {
        assert_eq!(plain::list(&[0x60; 4][..left], 0, 1000), (Listed::default(), Vec::new()));
    }
    assert_eq!(plain::tail(0, 1000), b"");
    assert_eq!(plain::tail(3, 1000), b"tail 3\n");
    assert_eq!((plain::tail(3, 7), plain::tail(3, 6)), (b"tail 3\n".to_vec(), Vec::new()));
}

/// 7.2: "RVAAE1ISNXS. TLBIP Rt 30: "X30, XZR"; Rt 31: "XZR, XZR". SYSP odd Rt not listed, SYS odd Rt listed." 7.3: no features.
#[test]
fn r7_2_names_and_registers() {
    assert_eq!(text(&[0xD508_9260]), "0 TLBI RVAAE1ISNXS, X0\n");
    assert_eq!(text(&[0xD54C_863E]), "0 TLBIP RVAE2, X30, XZR\n");
    assert_eq!(text(&[0xD54C_863F]), "0 TLBIP RVAE2, XZR, XZR\n");
    assert_eq!(text(&[0xD508_827F]), "0 TLBI RVAAE1IS, XZR\n");
    assert_eq!(text(&[0xD508_827D]), "0 TLBI RVAAE1IS, X29\n");
    assert_eq!(text(&[0xD54C_863D]), "");
    assert_eq!(text(&[0xD54C_80C0, 0xD50C_94E2]), "0 TLBIP RIPAS2LE1IS, X0, X1\n4 TLBI RIPAS2LE1OSNXS, X2\n");
}

/// Every name of 01, local.
#[test]
fn every_name() {
    let words = [
        (sys(0, 6, 1), "RVAE1"),
        (sys(0, 6, 3), "RVAAE1"),
        (sys(0, 6, 5), "RVALE1"),
        (sys(0, 6, 7), "RVAALE1"),
        (sys(4, 6, 1), "RVAE2"),
        (sys(4, 6, 5), "RVALE2"),
        (sys(6, 6, 1), "RVAE3"),
        (sys(6, 6, 5), "RVALE3"),
        (sys(4, 4, 2), "RIPAS2E1"),
        (sys(4, 4, 6), "RIPAS2LE1"),
    ];
    for (word, name) in words {
        assert_eq!(text(&[word as u32]), format!("0 TLBI {}, X0\n", name));
    }
}

/// 7.4: "Offsets pass 2^32 on long input"; they count modulo 2^64.
#[test]
fn r7_4_offsets() {
    let bytes = code(&[0xD508_8260, 0xD508_8260]);
    let at = |at| String::from_utf8(plain::list(&bytes, at, 1000).1).unwrap();
    assert_eq!(at(1 << 32), "4294967296 TLBI RVAAE1IS, X0\n4294967300 TLBI RVAAE1IS, X0\n");
    assert_eq!(at(u64::MAX - 3), "18446744073709551612 TLBI RVAAE1IS, X0\n0 TLBI RVAAE1IS, X0\n");
}

/// The header: "up to the last whole word or to the first line that does not fit". Words that are not listed count as used.
#[test]
fn lines_that_do_not_fit() {
    let bytes = code(&[0xD503_201F, 0xD508_8260, 0xD503_201F, 0xD508_8261, 0xD503_201F]);
    // "4 TLBI RVAAE1IS, X0\n" is 20 bytes, "12 TLBI RVAAE1IS, X1\n" 21.
    for (room, used, written) in [(0, 4, 0), (19, 4, 0), (20, 12, 20), (40, 12, 20), (41, 20, 41)] {
        let (listed, text) = plain::list(&bytes, 0, room);
        assert_eq!(listed, Listed { used, written });
        assert_eq!(text.len() as u64, written);
    }
}
