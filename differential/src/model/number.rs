//! f32, whole numbers and decimals, on bits.
use super::text::Decimal;
use std::cmp::Ordering;

/// The bits of the f32 nearest to a signed number of 64 bits, ties to even.
pub fn f32_of_i64(x: i64) -> u32 {
    let sign = if x < 0 { 1u32 << 31 } else { 0 };
    let m = x.unsigned_abs();
    if m == 0 {
        return 0;
    }
    let exponent = 63 - m.leading_zeros();
    if exponent <= 23 {
        let fraction = ((m << (23 - exponent)) as u32) & 0x7F_FFFF;
        return sign | ((127 + exponent) << 23) | fraction;
    }
    let shift = exponent - 23;
    let (kept, lost, half) = (m >> shift, m & ((1 << shift) - 1), 1u64 << (shift - 1));
    let up = lost > half || (lost == half && kept & 1 == 1);
    // A carry out of the fraction raises the exponent.
    sign + (((127 + exponent) << 23) + ((kept as u32) & 0x7F_FFFF) + up as u32)
}

/// An f32 toward zero as a signed number of 64 bits; both ends saturate, NaN gives 0.
pub fn i64_of_f32(bits: u32) -> i64 {
    let minus = bits >> 31 == 1;
    let exponent = ((bits >> 23) & 0xFF) as i32;
    let fraction = bits & 0x7F_FFFF;
    if exponent == 255 && fraction != 0 {
        return 0;
    }
    if exponent < 127 {
        return 0;
    }
    if exponent >= 127 + 63 {
        return if minus { i64::MIN } else { i64::MAX };
    }
    let significand = (fraction | 0x80_0000) as u64;
    let shift = exponent - 127 - 23;
    let m = if shift >= 0 { significand << shift } else { significand >> -shift };
    if minus { -(m as i64) } else { m as i64 }
}

/// The patterns of 2^-37 and 2^30: every decimal but 0 lies between them.
const ENDS: (u32, u32) = (90 << 23, 157 << 23);

/// 2^60 times the f32 of a pattern that is not below 2^-37.
fn scaled(pattern: u32) -> u128 {
    ((pattern & 0x7F_FFFF | 0x80_0000) as u128) << ((pattern >> 23) - 90)
}

/// The pattern of the greatest f32 that is not above digits / 10^places, and how the way up to the next one compares with
/// the way down. The digits are not zero. Greater patterns are greater f32s, and nothing is rounded.
fn beside(digits: u64, places: u32) -> (u32, Ordering) {
    let (exact, unit) = ((digits as u128) << 60, 10u128.pow(places));
    let (mut low, mut high) = ENDS;
    while high - low > 1 {
        let middle = low + (high - low) / 2;
        *(if scaled(middle) * unit <= exact { &mut low } else { &mut high }) = middle;
    }
    (low, (scaled(high) * unit - exact).cmp(&(exact - scaled(low) * unit)))
}

/// The bits of the f32 nearest to a decimal, ties to even.
pub fn f32_of_decimal(d: Decimal) -> u32 {
    let sign = if d.minus { 1u32 << 31 } else { 0 };
    if d.digits == 0 {
        return sign;
    }
    match beside(d.digits, d.places) {
        (low, Ordering::Less) => sign | (low + 1),
        (low, Ordering::Equal) => sign | (low + low % 2),
        (low, Ordering::Greater) => sign | low,
    }
}

/// Whether a decimal is halfway between two f32s.
pub fn is_tie(d: Decimal) -> bool {
    d.digits != 0 && beside(d.digits, d.places).1 == Ordering::Equal
}

/// A decimal toward zero.
pub fn i64_of_decimal(d: Decimal) -> i64 {
    let m = (d.digits / 10u64.pow(d.places)) as i64;
    if d.minus { -m } else { m }
}
