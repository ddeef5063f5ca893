//! The coercions of the second writing, in place of the exported leaves.
use crate::oracle::{of, Fit};
use sandvurek_model::bytes::u32_at;
use sandvurek_model::model::coerce;
use sandvurek_model::model::sheet::{Row, Sheet};

/// The rows of a sheet; row 0 is the value.
fn read(s: &[u8]) -> Sheet<'_> {
    let n = u32_at(s, 0) as usize;
    let mut sheet = Sheet::of_text(&s[4 + 24 * n..]);
    let field = |at: usize| move |k: usize| u32_at(s, at + 4 * k);
    sheet.rows = (0..n)
        .map(|r| {
            let f = field(4 + 24 * r);
            Row { kind: s[4 + 24 * r], name: f(1), a: f(2), b: f(3), c: f(4), d: f(5) }
        })
        .collect();
    sheet
}

fn fit<T: Default>(x: coerce::Fit<T>) -> Fit<T> {
    match x {
        coerce::Fit::Fits(value) => Fit { code: 0, value },
        coerce::Fit::Unfit => of(None),
        coerce::Fit::FloatText => Fit { code: 11, value: T::default() },
    }
}

pub fn int_of(s: &[u8]) -> Fit<u64> {
    let sheet = read(s);
    fit(sheet.int_of(&sheet.rows[0]))
}

pub fn float_of(s: &[u8]) -> Fit<u32> {
    let sheet = read(s);
    fit(sheet.float_of(&sheet.rows[0]))
}

pub fn vec_of(s: &[u8], wanted: usize) -> Fit<[u32; 4]> {
    let sheet = read(s);
    fit(sheet.vec_of(&sheet.rows[0], wanted))
}

pub fn str_of(s: &[u8]) -> Option<Vec<u8>> {
    let sheet = read(s);
    sheet.str_of(&sheet.rows[0]).map(<[u8]>::to_vec)
}

/// The length of row 0's text, and what then stands in a buffer of `room` bytes that held 9s.
pub fn str_into(s: &[u8], room: usize) -> (usize, Vec<u8>) {
    let text = str_of(s).unwrap_or_default();
    let mut out = vec![9; room];
    if text.len() <= room {
        out[..text.len()].copy_from_slice(&text);
    }
    (text.len(), out)
}

pub fn hash_of(s: &[u8]) -> Fit<u32> {
    let sheet = read(s);
    of(sheet.hash_of(&sheet.rows[0]))
}

/// `n` entries at a place of the schema file, if it has them.
fn entries(p: &[u8], at: usize, n: usize) -> Option<Vec<(u32, u32)>> {
    let end = n.checked_mul(8).and_then(|l| at.checked_add(l)).filter(|end| *end <= p.len())?;
    Some(p[at..end].chunks(8).map(|e| (u32_at(e, 0), u32_at(e, 4))).collect())
}

pub fn enum_value(s: &[u8], p: &[u8], at: usize, n: usize) -> Fit<u32> {
    let sheet = read(s);
    entries(p, at, n).map_or(of(None), |e| fit(sheet.enum_value(&sheet.rows[0], &e)))
}

pub fn flags_bits(s: &[u8], p: &[u8], at: usize, n: usize) -> Fit<u32> {
    let sheet = read(s);
    entries(p, at, n).map_or(of(None), |e| fit(sheet.flags_bits(&sheet.rows[0], &e)))
}
