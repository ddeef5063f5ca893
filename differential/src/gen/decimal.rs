//! Decimals as text, lists of them, and what is nearly one.
use super::plan::{member, Body, Plan};
use super::text::{around, no_number, FLOATS};
use super::tree::Tree;
use super::value::number;
use super::Size;
use crate::model::schema::Member;
use crate::model::text::hash_text;
use crate::model::write::ARRAYINFO;
use crate::rng::Rng;

/// Zeros, lone points, nine digits, ties and their neighbours, numbers of more than 24 bits.
pub const DECIMALS: [&str; 48] = [
    "1.5", "-1.5", "1.", ".5", "+.5", "3.", "12.5", "-12.9", "-0.9", "257.5", "0.1", "-2.5", "-0", "-0.0", "-.0", "-0.", "+0", "0", "00.00",
    "000000000", ".000000000", "-000000000.", "00000000.5", "0.50000000", "7", "-7", "+7.", "999999999", ".999999999", "99999999.9", "-999999999.",
    ".000000001", "-0.00000001", "123456789", "123456789.", ".123456789", "12345.6789", "8388608.5", "8388609.5", "-8388609.5", "4194304.25",
    "4194304.75", "16777217", "16777219", "-16777217.", "33554434.", "16777216.5", "0.30000001",
];

/// A number halfway between two f32s, or nearly: 24 bits, and one more behind them.
fn tie(rng: &mut Rng) -> String {
    let m = (1 << 23) + rng.below(1 << 23) as u64;
    match rng.below(4) {
        0 => format!("{m}.{}", rng.pick(&["5", "5", "4", "6"])),
        1 => format!("{}.{}", m / 2, rng.pick(&["25", "75", "24", "26", "74", "76"])),
        _ => {
            let shift = rng.range(1, 5);
            let n = (m << shift) + (1 << (shift - 1)) + *rng.pick(&[0, 0, 1, 2]);
            format!("{}{}", n - rng.below(2) as u64, rng.pick(&["", "", "."]))
        }
    }
}

/// Some digits, with a point among or beside them.
fn pointed(rng: &mut Rng) -> String {
    let many = if rng.chance(1, 2) { 9 } else { rng.range(1, 9) };
    let mut digits: String = (0..many).map(|_| (b'0' + rng.below(10) as u8) as char).collect();
    let zeros = "0".repeat(rng.below(many + 1));
    match rng.below(8) {
        0 => digits.replace_range(..zeros.len(), &zeros),
        1 => digits.replace_range(many - zeros.len().., &zeros),
        _ => {}
    }
    if rng.chance(7, 8) {
        digits.insert(rng.below(many + 1), '.');
    }
    digits
}

/// A decimal of one to nine digits.
pub fn decimal(rng: &mut Rng) -> String {
    let t = match rng.below(8) {
        0..=2 => return rng.pick(&DECIMALS).to_string(),
        3 => tie(rng),
        4 => format!("{}.{}", rng.below(1000), rng.below(100)),
        _ => pointed(rng),
    };
    format!("{}{t}", rng.pick(&["", "", "", "-", "-", "+"]))
}

/// A float text that is refused: ten digits, an exponent, a word.
fn refused(rng: &mut Rng) -> String {
    let digit = |rng: &mut Rng| rng.below(10).to_string();
    match rng.below(4) {
        0 => {
            let mut t: String = (0..rng.range(10, 20)).map(|_| digit(rng)).collect();
            t.insert(rng.below(t.len() + 1), '.');
            t
        }
        1 => format!("{}{}", decimal(rng), rng.pick(&["e0", "E1", "e-3", "e+10"])),
        _ => rng.pick(&FLOATS).to_string(),
    }
}

/// A text for a float's place; of a hundred so many are refused, and so many are no float.
pub fn real(rng: &mut Rng, floats: usize, wrong: usize) -> Vec<u8> {
    let t = match rng.below(100) {
        x if x < floats => refused(rng),
        _ if rng.chance(wrong, 100) => return no_number(rng),
        _ => decimal(rng),
    };
    around(rng, &t)
}

/// A text of `n` decimals, or of other numbers of them; now and then one part is refused or no float.
pub fn list(rng: &mut Rng, n: usize, floats: usize, wrong: usize) -> Vec<u8> {
    let count = match rng.below(16) {
        0 => rng.below(n),
        1..=4 => rng.range(n, 7),
        _ => n,
    };
    let mut parts: Vec<String> = (0..count).map(|_| decimal(rng)).collect();
    for (share, is_float) in [(floats, true), (wrong, false)] {
        if rng.chance(share, 100) && count > 0 {
            let part = if is_float { refused(rng) } else { rng.pick(&["x", ".", "-", "1.2.3", "0x1", "1.5f", "true", "+."]).to_string() };
            let at = rng.below(count);
            parts[at] = part;
        }
    }
    let mut out = Vec::new();
    for (k, part) in parts.iter().enumerate() {
        if k > 0 || rng.chance(1, 8) {
            out.extend_from_slice(rng.pick(&[",", ",", " ", ", ", ",,", "\t", " ,\n", "\x0b\x0c\r"]).as_bytes());
        }
        out.extend_from_slice(part.as_bytes());
    }
    if rng.chance(1, 8) {
        out.extend_from_slice(rng.pick(&[",", " ", "\n", " , "]).as_bytes());
    }
    out
}

/// Types and subtypes of members that take numbers; the reference of enums and flags is given later.
const PLACES: [(u8, u8); 24] = [
    (7, 0), (7, 0), (8, 0), (8, 0), (9, 0), (0x0A, 0), (0x14, 0), (0x15, 0), (0, 0), (1, 0), (2, 0), (3, 0), (4, 0), (5, 0), (6, 0), (0x1E, 0),
    (0x20, 0), (0x0E, 0), (0x0E, 1), (0x0E, 2), (0x0F, 0), (0x0F, 1), (0x0F, 2), (0x0F, 0),
];

/// Numbers of a kind as a member or an element wants them, most of them as text.
fn value(rng: &mut Rng, ty: u8, floats: usize, wrong: usize) -> Tree {
    let n = match ty {
        8 => 2,
        9 | 0x14 => 3,
        0x0A | 0x15 => 4,
        _ => 1,
    };
    if n > 1 && rng.chance(1, 4) {
        let count = if rng.chance(1, 6) { rng.below(6) } else { n };
        return Tree::Array((0..count).map(|_| value(rng, 7, floats, wrong)).collect());
    }
    if ty == 0x0F && rng.chance(1, 2) {
        return match rng.below(2) {
            0 => Tree::Array((0..rng.below(4)).map(|_| value(rng, 6, floats, wrong)).collect()),
            _ => Tree::text(rng.pick(&["1.5,red", "red 1.5", "1.5,", " 1.5 ", "1.5 .5", "red"]).as_bytes()),
        };
    }
    match rng.below(12) {
        0 => number(rng),
        _ if n > 1 => Tree::Text(list(rng, n, floats, wrong)),
        _ => Tree::Text(real(rng, floats, wrong)),
    }
}

/// One structure whose members and runs take numbers, and decimals for them.
pub fn decimals(rng: &mut Rng, _size: Size) -> (Vec<u8>, Vec<u8>) {
    let (floats, wrong) = *rng.pick(&[(0, 0), (0, 0), (0, 3), (0, 12), (4, 4), (12, 0)]);
    let mut members: Vec<Member> = Vec::new();
    let mut fields: Vec<(u32, Tree)> = Vec::new();
    for k in 0..rng.range(1, 4) as u32 {
        let (ty, subtype) = *rng.pick(&PLACES);
        let offset = 16 * k as u16;
        let index = members.len() as u32;
        let run = ty != 0x0F && rng.chance(1, 3);
        match (run, ty) {
            (true, _) => {
                let count = if rng.chance(1, 6) { 1 << 16 } else { 0 };
                let reference = if ty == 0x0E { 0xE000 } else { 0 };
                members.push(member(ARRAYINFO, ty, subtype, 0, reference));
                members.push(member(0x41 + k, 0x0D, (count != 0) as u8, offset, count + index));
                fields.push((0x41 + k, Tree::Array((0..rng.below(5)).map(|_| value(rng, ty, floats, wrong)).collect())));
            }
            (_, 0x0F) => {
                members.push(member(ARRAYINFO, 0x0E, 0, 0, 0xE000));
                members.push(member(0x41 + k, ty, subtype, offset, index));
                fields.push((0x41 + k, value(rng, ty, floats, wrong)));
            }
            _ => {
                members.push(member(0x41 + k, ty, subtype, offset, 0xE000));
                fields.push((0x41 + k, value(rng, ty, floats, wrong)));
            }
        }
    }
    let entries = ["red", "1.5", "x"].iter().map(|w| (hash_text(w.as_bytes()), rng.below(40) as u32)).collect();
    let defs = vec![(0x40, Body::Structure(0, 64, 0, members)), (0xE000, Body::Enum(entries))];
    (Tree::Struct(0x40, fields).sheet(), Plan::of(defs).bytes())
}
