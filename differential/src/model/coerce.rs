//! A row read as what a member wants: a value, unfit, or a float text (refusal 11).
use super::number::{f32_of_decimal, f32_of_i64, i64_of_decimal, i64_of_f32};
use super::sheet::*;
use super::text::*;

#[derive(Clone, Copy, Debug, PartialEq)]
pub enum Fit<T> {
    Fits(T),
    Unfit,
    FloatText,
}
use Fit::*;

impl<T> Fit<T> {
    pub fn map<U>(self, f: impl FnOnce(T) -> U) -> Fit<U> {
        match self {
            Fits(x) => Fits(f(x)),
            Unfit => Unfit,
            FloatText => FloatText,
        }
    }
}

/// An enum's entries: name and value.
pub type Entries<'a> = &'a [(u32, u32)];

fn option<T>(o: Option<T>) -> Fit<T> {
    o.map_or(Unfit, Fits)
}

/// The first entry of a name.
fn entry(entries: Entries, name: u32) -> Option<u32> {
    entries.iter().find(|e| e.0 == name).map(|e| e.1)
}

/// A text that a float parse is tried on: a decimal as `read` takes it, any other float text is refused.
fn float_text<T>(t: &[u8], read: impl FnOnce(Decimal) -> T) -> Fit<T> {
    match decimal(t) {
        Some(d) => Fits(read(d)),
        None if parses_float(t) => FloatText,
        None => Unfit,
    }
}

/// The first four of a list of numbers, by their bits. The first that fails decides; then they are counted.
fn four<T>(list: impl Iterator<Item = Fit<T>>, bits: impl Fn(T) -> u32, wanted: usize) -> Fit<[u32; 4]> {
    let (mut out, mut count) = ([0; 4], 0);
    for fit in list {
        match fit {
            Fits(x) if count < 4 => out[count] = bits(x),
            Fits(_) => {}
            Unfit => return Unfit,
            FloatText => return FloatText,
        }
        count += 1;
    }
    if count >= wanted { Fits(out) } else { Unfit }
}

/// A trimmed text as a whole number: hexadecimal behind a mark, else decimal, else a float.
fn number_text(t: &[u8]) -> Fit<u64> {
    if let Some(digits) = after_hex_mark(t) {
        return option(whole(digits, 16));
    }
    match whole(t, 10) {
        Some(x) => Fits(x),
        None => float_text(t, |d| i64_of_decimal(d) as u64),
    }
}

impl Sheet<'_> {
    /// A whole number, as 64 bits.
    pub fn int_of(&self, row: &Row) -> Fit<u64> {
        match row.kind {
            NULL => Fits(0),
            BOOL | U8 | U16 | U32 | HASH | FLAGS => Fits(row.a as u64),
            I8 | I16 | I32 | ENUM => Fits(row.a as i32 as i64 as u64),
            I64 | U64 => Fits((row.a as u64) << 32 | row.b as u64),
            F32 => Fits(i64_of_f32(row.a) as u64),
            STR => {
                let t = trim(self.text(row));
                if is_word(t, "true") {
                    Fits(1)
                } else if t.is_empty() || is_word(t, "false") {
                    Fits(0)
                } else {
                    number_text(t)
                }
            }
            _ => Unfit,
        }
    }

    /// The bits of an f32.
    pub fn float_of(&self, row: &Row) -> Fit<u32> {
        match row.kind {
            F32 => Fits(row.a),
            STR => float_text(trim(self.text(row)), f32_of_decimal),
            _ => self.int_of(row).map(|x| f32_of_i64(x as i64)),
        }
    }

    /// Four f32s, of which `wanted` are used.
    pub fn vec_of(&self, row: &Row, wanted: usize) -> Fit<[u32; 4]> {
        match row.kind {
            NULL => Fits([0; 4]),
            VEC2 => Fits([row.a, row.b, 0, 0]),
            VEC3 => Fits([row.a, row.b, row.c, 0]),
            VEC4 => Fits([row.a, row.b, row.c, row.d]),
            // Of an Array four items are looked at, of a text all parts; no part at all is too few.
            ARRAY => four(self.children(row).take(4).map(|r| self.float_of(&self.rows[r])), |x| x, wanted),
            STR => four(parts(self.text(row)).map(|p| float_text(p, |d| d)), f32_of_decimal, wanted.max(1)),
            _ => Unfit,
        }
    }

    pub fn str_of(&self, row: &Row) -> Option<&[u8]> {
        match row.kind {
            STR => Some(self.text(row)),
            NULL => Some(&[]),
            HASH if row.a == 0 => Some(&[]),
            _ => None,
        }
    }

    pub fn hash_of(&self, row: &Row) -> Option<u32> {
        match row.kind {
            NULL => Some(0),
            HASH | U32 | I32 | ENUM => Some(row.a),
            I64 | U64 => Some(row.b),
            STR => Some(hash_text(self.text(row))),
            _ => None,
        }
    }

    /// The 32 bits of an enum's value.
    pub fn enum_value(&self, row: &Row, entries: Entries) -> Fit<u32> {
        match row.kind {
            HASH => Fits(entry(entries, row.a).unwrap_or(row.a)),
            STR => {
                let t = trim(self.text(row));
                if t.is_empty() {
                    return Fits(0);
                }
                match number_text(t) {
                    Unfit => option(entry(entries, hash_text(t))),
                    found => found.map(|x| x as u32),
                }
            }
            _ => self.int_of(row).map(|x| x as u32),
        }
    }

    /// The bits of a flag set.
    pub fn flags_bits(&self, row: &Row, entries: Entries) -> Fit<u32> {
        match row.kind {
            STR => {
                let t = trim(self.text(row));
                if t.is_empty() {
                    return Fits(0);
                }
                match number_text(t) {
                    Unfit => {
                        let mut bits = 0;
                        for name in parts(t) {
                            match entry(entries, hash_text(name)) {
                                Some(v) => bits |= 1u32 << (v % 32),
                                None => return Unfit,
                            }
                        }
                        Fits(bits)
                    }
                    found => found.map(|x| x as u32),
                }
            }
            ARRAY => {
                let mut bits = 0;
                for r in self.children(row) {
                    match self.flags_bits(&self.rows[r], entries) {
                        Fits(x) => bits |= x,
                        failed => return failed,
                    }
                }
                Fits(bits)
            }
            _ => self.int_of(row).map(|x| x as u32),
        }
    }
}
