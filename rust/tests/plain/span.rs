//! Span exponents by width, granule and level (01's table), and the exponents of the granules themselves.

const NONE: u32 = 0;

/// 01's table: for each width and granule the exponents of levels -1 to 3, 0 where there is none.
const EXPONENTS: [[[u32; 5]; 3]; 2] = [
    [[48, 39, 30, 21, 12], [NONE, 47, 36, 25, 14], [NONE, NONE, 42, 29, 16]],
    [[44, 36, 28, 20, 12], [54, 44, 34, 24, 14], [NONE, 52, 40, 28, 16]],
];

/// The exponent of a width (0 or 1), granule (1 to 3) and level (-1 to 3); none for a level without a span and for any other number.
pub fn exponent(wide: u64, granule: u64, level: i64) -> Option<u32> {
    if wide > 1 || !(1..=3).contains(&granule) || !(-1..=3).contains(&level) {
        return None;
    }
    let exponent = EXPONENTS[wide as usize][granule as usize - 1][(level + 1) as usize];
    if exponent == NONE {
        None
    } else {
        Some(exponent)
    }
}

/// The bits of an address below a span of this exponent (at most 54).
pub fn below(exponent: u32) -> u64 {
    (1 << exponent) - 1
}

/// The exponent of the granule of TG 1, 2 or 3: 4, 16 or 64 KiB.
pub fn granule_exponent(tg: u64) -> u32 {
    match tg {
        1 => 12,
        2 => 14,
        _ => 16,
    }
}
