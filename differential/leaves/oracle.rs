//! What the reference answers. Where it comes to a float parse that succeeds, judged by Rust's own parse, and the text is no decimal of
//! one to nine digits, the answer is code 11.
use crate::coerce;
use crate::value::MetaValue;

#[derive(Debug, Clone, Copy, PartialEq)]
pub struct Fit<T> {
    pub code: u32,
    pub value: T,
}

pub fn fits<T>(value: T) -> Fit<T> {
    Fit { code: 0, value }
}

pub fn of<T: Default>(o: Option<T>) -> Fit<T> {
    o.map_or(Fit { code: 1, value: T::default() }, fits)
}

fn float<T: Default>() -> Fit<T> {
    Fit { code: 11, value: T::default() }
}

pub fn parses(t: &str) -> bool {
    let f = t.parse::<f32>().is_ok();
    assert_eq!(f, t.parse::<f64>().is_ok(), "{t:?}");
    f
}

/// An optional sign, one to nine digits in all and at most one point.
pub fn decimal(t: &str) -> bool {
    let t = t.strip_prefix(['+', '-']).unwrap_or(t);
    let digits = t.bytes().filter(u8::is_ascii_digit).count();
    let points = t.bytes().filter(|b| *b == b'.').count();
    (1..=9).contains(&digits) && points <= 1 && digits + points == t.len()
}

/// The float parse succeeds, of a text that is refused.
fn refused(t: &str) -> bool {
    assert!(!decimal(t) || parses(t), "{t:?}");
    parses(t) && !decimal(t)
}

/// The integer readings fail, and the float parse behind them succeeds and is refused.
fn reaches_float(t: &str) -> bool {
    !t.starts_with("0x") && !t.starts_with("0X") && t.parse::<i64>().is_err() && t.parse::<u64>().is_err() && refused(t)
}

pub fn int(v: &MetaValue) -> Fit<u64> {
    if let MetaValue::Str(s) = v {
        let t = s.trim();
        if !t.eq_ignore_ascii_case("true") && !t.eq_ignore_ascii_case("false") && !t.is_empty() && reaches_float(t) {
            return float();
        }
    }
    of(coerce::int_of(v).map(|x| x as u64))
}

pub fn float_of(v: &MetaValue) -> Fit<u32> {
    if let MetaValue::Str(s) = v {
        if refused(s.trim()) {
            return float();
        }
    }
    of(coerce::float_of(v).map(f32::to_bits))
}

pub fn vec(v: &MetaValue, n: usize) -> Fit<[u32; 4]> {
    match v {
        MetaValue::Array(a) => {
            for x in a.items.iter().take(4) {
                let f = float_of(x);
                if f.code != 0 {
                    return Fit { code: f.code, value: [0; 4] };
                }
            }
        }
        MetaValue::Str(s) => {
            let mut parts = s.split(|c: char| c == ',' || c.is_whitespace()).filter(|p| !p.is_empty());
            if parts.find(|p| !decimal(p)).map_or(false, parses) {
                return float();
            }
        }
        _ => {}
    }
    of(coerce::vec_of(v, n).map(|f| f.map(f32::to_bits)))
}

pub fn hash(v: &MetaValue) -> Fit<u32> {
    of(coerce::hash_of(v))
}

pub fn enum_value(v: &MetaValue, members: &[(u32, i32)]) -> Fit<u32> {
    if let MetaValue::Str(s) = v {
        let t = s.trim();
        if !t.is_empty() && reaches_float(t) {
            return float();
        }
    }
    of(coerce::enum_value(v, members).map(|x| x as u32))
}

pub fn flags(v: &MetaValue, members: &[(u32, i32)]) -> Fit<u32> {
    match v {
        MetaValue::Str(s) => {
            let t = s.trim();
            if !t.is_empty() && reaches_float(t) {
                return float();
            }
        }
        MetaValue::Array(a) => {
            for x in &a.items {
                let f = flags(x, members);
                if f.code != 0 {
                    return f;
                }
            }
        }
        _ => {}
    }
    of(coerce::flags_bits(v, members))
}
