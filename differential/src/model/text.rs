//! Texts: trimming, parts, whole numbers, the grammar of refusal 11, hashes.

pub fn blank(b: u8) -> bool {
    (9..=13).contains(&b) || b == 32
}

/// The middle part, without blanks at either end.
pub fn trim(t: &[u8]) -> &[u8] {
    let mut s = t;
    while let [first, rest @ ..] = s {
        if !blank(*first) {
            break;
        }
        s = rest;
    }
    while let [rest @ .., last] = s {
        if !blank(*last) {
            break;
        }
        s = rest;
    }
    s
}

/// The parts between commas and blanks that are not empty.
pub fn parts(t: &[u8]) -> impl Iterator<Item = &[u8]> {
    t.split(|b| *b == b',' || blank(*b)).filter(|p| !p.is_empty())
}

/// The same letters in either case; `word` is in small letters.
pub fn is_word(t: &[u8], word: &str) -> bool {
    t.len() == word.len() && t.iter().zip(word.bytes()).all(|(x, w)| x.to_ascii_lowercase() == w)
}

/// What follows `0x` or `0X`.
pub fn after_hex_mark(t: &[u8]) -> Option<&[u8]> {
    match t {
        [b'0', b'x' | b'X', rest @ ..] => Some(rest),
        _ => None,
    }
}

/// Sign and magnitude; a magnitude above 64 bits stays above them.
fn signed_digits(t: &[u8], radix: u128) -> Option<(bool, u128)> {
    let (minus, digits) = match t {
        [b'-', rest @ ..] => (true, rest),
        [b'+', rest @ ..] => (false, rest),
        _ => (false, t),
    };
    if digits.is_empty() {
        return None;
    }
    let mut n = 0u128;
    for d in digits {
        let v = match d {
            b'0'..=b'9' => d - b'0',
            b'a'..=b'z' => d - b'a' + 10,
            b'A'..=b'Z' => d - b'A' + 10,
            _ => return None,
        };
        if v as u128 >= radix {
            return None;
        }
        n = (n * radix + v as u128).min(1 << 80);
    }
    Some((minus, n))
}

/// The text as an i64, else as a u64, as 64 bits.
pub fn whole(t: &[u8], radix: u128) -> Option<u64> {
    let (minus, n) = signed_digits(t, radix)?;
    match minus {
        true if n <= 1 << 63 => Some((n as u64).wrapping_neg()),
        false if n < 1 << 64 => Some(n as u64),
        _ => None,
    }
}

/// What `u32::from_str_radix(_, 16)` reads.
pub fn hex_u32(t: &[u8]) -> Option<u32> {
    match signed_digits(t, 16)? {
        (false, n) if n < 1 << 32 => Some(n as u32),
        _ => None,
    }
}

fn after_digits(t: &[u8]) -> &[u8] {
    &t[t.iter().take_while(|b| b.is_ascii_digit()).count()..]
}

fn after_sign(t: &[u8]) -> &[u8] {
    match t {
        [b'+' | b'-', rest @ ..] => rest,
        _ => t,
    }
}

/// An `f32` or `f64` parse of the text would succeed: refusal 11, unless the text is a decimal.
pub fn parses_float(t: &[u8]) -> bool {
    let t = after_sign(t);
    if ["inf", "infinity", "nan"].iter().any(|w| is_word(t, w)) {
        return true;
    }
    let mut rest = after_digits(t);
    let mut digits = t.len() - rest.len();
    if let [b'.', fraction @ ..] = rest {
        rest = after_digits(fraction);
        digits += fraction.len() - rest.len();
    }
    if digits == 0 {
        return false;
    }
    match rest {
        [] => true,
        [b'e' | b'E', exponent @ ..] => {
            let e = after_sign(exponent);
            !e.is_empty() && after_digits(e).is_empty()
        }
        _ => false,
    }
}

/// digits / 10^places, below zero where `minus`; a zero may have the sign too.
#[derive(Clone, Copy, Debug, PartialEq)]
pub struct Decimal {
    pub minus: bool,
    pub digits: u64,
    pub places: u32,
}

/// An optional sign, one to nine digits in all and at most one point. A longer text is none, and is not walked over.
pub fn decimal(t: &[u8]) -> Option<Decimal> {
    let number = after_sign(t);
    if number.len() > 10 {
        return None;
    }
    let point = number.iter().position(|b| *b == b'.').unwrap_or(number.len());
    let (front, behind) = (&number[..point], number.get(point + 1..).unwrap_or(&[]));
    let digits = || front.iter().chain(behind);
    if !(1..=9).contains(&digits().count()) || !digits().all(u8::is_ascii_digit) {
        return None;
    }
    let value = digits().fold(0, |n, d| n * 10 + (d - b'0') as u64);
    Some(Decimal { minus: t[0] == b'-', digits: value, places: behind.len() as u32 })
}

impl Decimal {
    /// Something is left out where it is taken toward zero.
    pub fn has_fraction(&self) -> bool {
        self.digits % 10u64.pow(self.places) != 0
    }
}

/// Jenkins one-at-a-time, sums of 32 bits.
pub fn joaat(t: &[u8]) -> u32 {
    let mut h = 0u32;
    for b in t {
        h = h.wrapping_add(*b as u32);
        h = h.wrapping_add(h.wrapping_mul(1 << 10));
        h ^= h >> 6;
    }
    h = h.wrapping_add(h.wrapping_mul(1 << 3));
    h ^= h >> 11;
    h.wrapping_add(h.wrapping_mul(1 << 15))
}

/// A text as a hash.
pub fn hash_text(t: &[u8]) -> u32 {
    let t = trim(t);
    if t.is_empty() {
        return 0;
    }
    let spelt = match t {
        [b'h', b'a', b's', b'h', b'_', rest @ ..] => hex_u32(rest),
        _ => after_hex_mark(t).and_then(hex_u32),
    };
    spelt.unwrap_or_else(|| joaat(t))
}
