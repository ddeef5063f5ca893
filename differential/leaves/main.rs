//! The leaves against Rust's own arithmetic and text reading, and the coercions against the reference's.
#[allow(dead_code)]
mod coerce;
mod decimals;
mod hash;
#[cfg_attr(model, path = "model.rs")]
mod leaf;
#[allow(dead_code)]
mod math;
mod oracle;
mod rows;
mod sheet;
#[allow(dead_code)]
mod value;

use oracle::{of, Fit};
use std::fmt::Debug;
use std::time::Instant;
use value::{MetaArray, MetaStruct, MetaValue};

struct Random(u64);

impl Random {
    fn next(&mut self) -> u64 {
        self.0 ^= self.0 << 13;
        self.0 ^= self.0 >> 7;
        self.0 ^= self.0 << 17;
        self.0.wrapping_mul(0x2545_F491_4F6C_DD1D)
    }
    fn below(&mut self, n: usize) -> usize {
        (self.next() >> 16) as usize % n
    }
    fn pick<'a, T>(&mut self, l: &'a [T]) -> &'a T {
        &l[self.below(l.len())]
    }
}

fn same<T: PartialEq + Debug, C: Debug>(what: &str, case: C, ours: T, theirs: T) {
    if ours != theirs {
        println!("DIFFERS: {what} of {case:?}: {ours:?}, the reference {theirs:?}");
        std::process::exit(1);
    }
}

fn done(what: &str, n: u64, since: Instant) {
    println!("{what}: {n} agree ({:.1} s)", since.elapsed().as_secs_f64());
}

/// Whole numbers of every length, and those beside a power of two or halfway between two f32s.
fn whole(r: &mut Random) -> i64 {
    let x = r.next();
    match r.below(4) {
        0 => x as i64,
        1 => (x >> r.below(64)) as i64,
        2 => (1u64 << r.below(64)).wrapping_add(r.below(9) as u64).wrapping_sub(4) as i64,
        _ => {
            let k = 25 + r.below(39);
            let half = 1u64 << (k - 25);
            (((1u64 << (k - 1)) | (x >> (65 - k))) / (2 * half) * 2 * half + half).wrapping_add(r.below(3) as u64).wrapping_sub(1) as i64
        }
    }
}

#[cfg(not(model))]
fn conversions(r: &mut Random) {
    let t = Instant::now();
    let mut n = 0;
    let mut one = |x: i64| {
        let f = x as f32;
        same("f32_of_i64", x, leaf::f32_of_i64(x), f.to_bits());
        same("f32_rest", x, leaf::f32_rest(x) as i128, x as i128 - f as i128);
        n += 1;
    };
    for x in [0, 1, -1, i64::MIN, i64::MIN + 1, i64::MAX, i64::MAX - 1, 16_777_216, 16_777_217, 16_777_218, 16_777_219, 1 << 62] {
        one(x);
        one(x.wrapping_neg());
    }
    for _ in 0..20_000_000 {
        let x = whole(r);
        one(x);
        one(x.wrapping_neg());
    }
    done("i64 to f32, and the rest", n, t);
    let t = Instant::now();
    for b in 0..=u32::MAX {
        let (ours, theirs) = (leaf::i64_of_f32(b), f32::from_bits(b) as i64);
        if ours != theirs {
            same("i64_of_f32", b, ours, theirs);
        }
    }
    done("f32 to i64, all patterns", 1 << 32, t);
}

const PIECES: &[&str] = &[
    "0x", "0X", "hash_", "+", "-", ".", "e", "E", "inf", "Infinity", "nan", "true", "FALSE", " ", "\t", "\u{b}", ",", "0", "1", "9", "12", "007", "fF", "a", "G", "_", "FLAG", "OTHER", "none",
    "18446744073709551615", "18446744073709551616", "9223372036854775807", "9223372036854775808", "ffffffffffffffff", "ffffffff", "100000000", "1e400", "\u{c}", "\r", "\n", "\u{1c}", "\0", "\u{7f}",
];

fn text(r: &mut Random) -> String {
    match r.below(10) {
        8 | 9 => decimals::some(r),
        0 => (0..r.below(12)).map(|_| ((r.next() >> 20) as u8 & 127) as char).collect(),
        1 => (0..r.below(24)).map(|_| *r.pick(&['0', '1', '7', '8', '9', 'f', 'F', '.', 'e', '-', '+', ' '])).collect(),
        2 => format!("{}{}", r.pick(&["", "+", "-", "0x", "0x-", " "]), r.next() >> r.below(64)),
        3 => format!("{}{:x}", r.pick(&["", "+", "-", "0x", "0X", "hash_", "0x-"]), r.next() >> r.below(64)),
        _ => (0..r.below(6)).map(|_| *r.pick(PIECES)).collect(),
    }
}

#[cfg(not(model))]
fn texts(r: &mut Random) {
    let t = Instant::now();
    let mut n = 0;
    let mut one = |s: &str| {
        let b = s.as_bytes();
        same("joaat", s, leaf::joaat(b), hash::rage_joaat(s));
        for radix in [2, 10, 16, 36] {
            same("i64_of", (s, radix), leaf::i64_of(b, radix as u64), of(i64::from_str_radix(s, radix).ok()));
            same("u64_of", (s, radix), leaf::u64_of(b, radix as u64), of(u64::from_str_radix(s, radix).ok()));
        }
        for radix in [0, 1, 37, u64::MAX] {
            same("i64_of", (s, radix), leaf::i64_of(b, radix), of(None));
            same("u64_of", (s, radix), leaf::u64_of(b, radix), of(None));
        }
        same("i64_of", s, leaf::i64_of(b, 10), of(s.parse().ok()));
        same("u64_of", s, leaf::u64_of(b, 10), of(s.parse().ok()));
        same("hex_u32_of", s, leaf::hex_u32_of(b), of(u32::from_str_radix(s, 16).ok()));
        same("parses_float", s, leaf::parses_float(b), oracle::parses(s));
        let t = s.trim().len();
        same("trim", s, leaf::trim(b), s.trim().as_bytes().to_vec());
        if 0 < t {
            same("trim without room", s, leaf::trim_into(b, t - 1), (t, vec![9; t - 1]));
        }
        n += 1;
    };
    rows::TEXTS.iter().for_each(|s| one(s));
    for _ in 0..5_000_000 {
        one(&text(r));
    }
    done("texts: joaat, integers of radix 2, 10, 16, 36 and of none, the float grammar, trim", n, t);
    let t = Instant::now();
    for k in 0..200_000 {
        let s: String = (0..r.below(300)).map(|_| char::from_u32((r.next() >> 20) as u32 % 0x800).unwrap_or('x')).collect();
        same("joaat", &s, leaf::joaat(s.as_bytes()), hash::rage_joaat(&s));
        if k == 199_999 {
            done("joaat of longer texts with bytes above 127", k + 1, t);
        }
    }
}

fn number(r: &mut Random) -> MetaValue {
    use MetaValue::*;
    let x = r.next() >> r.below(64);
    match r.below(16) {
        0 => Bool(x & 1 == 1),
        1 => I8(x as i8),
        2 => U8(x as u8),
        3 => I16(x as i16),
        4 => U16(x as u16),
        5 => I32(x as i32),
        6 => U32(x as u32),
        7 => I64(whole(r)),
        8 => U64(x),
        9 => F32(f32::from_bits(x as u32)),
        10 => Hash(if x & 1 == 0 { x as u32 } else { r.pick(&rows::members()).0 }),
        11 => Enum { enum_hash: 0, value: x as i32, name: None },
        12 => Flags { enum_hash: 0, bits: x as u32, names: vec![] },
        13 => Vec2(math::Vec2 { x: f32::from_bits(x as u32), y: 2.0 }),
        14 => Vec3(math::Vec3 { x: 1.0, y: f32::from_bits(x as u32), z: 3.0 }),
        _ => Vec4(math::Vec4 { x: 1.0, y: 2.0, z: 3.0, w: f32::from_bits(x as u32) }),
    }
}

fn value(r: &mut Random, depth: usize) -> MetaValue {
    let kinds = if depth == 0 { 6 } else { 10 };
    match r.below(kinds) {
        0 => MetaValue::Null,
        1 | 2 => number(r),
        3 | 4 => MetaValue::Str(text(r)),
        5 => MetaValue::Bytes(vec![]),
        6 => MetaValue::Map(vec![(value(r, depth - 1), value(r, depth - 1))]),
        7 => MetaValue::Struct(MetaStruct { type_hash: 1, fields: vec![(2, value(r, depth - 1))] }),
        _ => MetaValue::Array(MetaArray { items: (0..r.below(6)).map(|_| value(r, depth - 1)).collect(), ..Default::default() }),
    }
}

const NAMES: [&str; 7] = ["int_of", "float_of", "vec_of", "str_of", "hash_of", "enum_value", "flags_bits"];

/// How often each coercion gave a value, none, or refusal 11.
type Tally = [[u64; 3]; 7];

/// Every coercion of one value; the entries stand at `at` of the schema's bytes.
fn coercions(v: &MetaValue, members: &[(u32, i32)], schema: &[u8], at: usize, tally: &mut Tally) {
    let s = sheet::sheet(v);
    let n = members.len();
    let mut note = |k: usize, code: u32| tally[k][if code == 11 { 2 } else { code as usize }] += 1;
    fn held<T: PartialEq + Debug + Copy>(k: usize, v: &MetaValue, ours: Fit<T>, theirs: Fit<T>) -> u32 {
        same(NAMES[k], v, ours, theirs);
        theirs.code
    }
    note(0, held(0, v, leaf::int_of(&s), oracle::int(v)));
    note(1, held(1, v, leaf::float_of(&s), oracle::float_of(v)));
    for k in 2..=4 {
        note(2, held(2, v, leaf::vec_of(&s, k), oracle::vec(v, k)));
    }
    let text = coerce::str_of(v).map(String::into_bytes);
    note(3, text.is_none() as u32);
    if let Some(n) = text.as_ref().map(Vec::len).filter(|n| 0 < *n) {
        same("str_of without room", v, leaf::str_into(&s, n - 1), (n, vec![9; n - 1]));
    }
    same(NAMES[3], v, leaf::str_of(&s), text);
    note(4, held(4, v, leaf::hash_of(&s), oracle::hash(v)));
    note(5, held(5, v, leaf::enum_value(&s, schema, at, n), oracle::enum_value(v, members)));
    note(6, held(6, v, leaf::flags_bits(&s, schema, at, n), oracle::flags(v, members)));
}

fn all_coercions(r: &mut Random) {
    let t = Instant::now();
    let members = rows::members();
    let schema = [vec![9; 5], sheet::entries(&members), vec![9; 3]].concat();
    let fixed = rows::values();
    let mut tally = Tally::default();
    for v in &fixed {
        coercions(v, &members, &schema, 5, &mut tally);
        coercions(v, &[], &schema, 5, &mut tally);
        let s = sheet::sheet(v);
        for (at, n) in [(1 << 63, 0), (usize::MAX, 1), (5, 1 << 24), (usize::MAX, usize::MAX)] {
            same("enum_value of no entries", (v, at, n), leaf::enum_value(&s, &schema, at, n), of(None));
            same("flags_bits of no entries", (v, at, n), leaf::flags_bits(&s, &schema, at, n), of(None));
        }
    }
    done("coercions of the fixed rows, with entries and with none", 2 * fixed.len() as u64, t);
    let t = Instant::now();
    for _ in 0..3_000_000 {
        let depth = r.below(4);
        let v = value(r, depth);
        coercions(&v, &members, &schema, 5, &mut tally);
    }
    done("coercions of random rows", 3_000_000, t);
    for (name, n) in NAMES.iter().zip(tally) {
        println!("  {name}: {} values, {} without, {} refusals 11", n[0], n[1], n[2]);
    }
}

/// The entries, then for each fixed row its answers and its sheet.
fn record(path: &str) {
    let members = rows::members();
    let mut out = (members.len() as u32).to_be_bytes().to_vec();
    out.extend(sheet::entries(&members));
    for v in rows::values() {
        let mut a: Vec<u8> = Vec::new();
        let mut put = |code: u32, w: &[u32]| {
            a.extend(code.to_be_bytes());
            w.iter().for_each(|x| a.extend(x.to_be_bytes()));
        };
        let i = oracle::int(&v);
        put(i.code, &[(i.value >> 32) as u32, i.value as u32]);
        let f = oracle::float_of(&v);
        put(f.code, &[f.value]);
        for k in 2..=4 {
            let x = oracle::vec(&v, k);
            put(x.code, &x.value);
        }
        let s = coerce::str_of(&v);
        let text = s.clone().unwrap_or_default();
        put(s.is_none() as u32, &[text.len() as u32, hash::rage_joaat(&text)]);
        for x in [oracle::hash(&v), oracle::enum_value(&v, &members), oracle::flags(&v, &members)] {
            put(x.code, &[x.value]);
        }
        let s = sheet::sheet(&v);
        out.extend(((4 + a.len() + s.len()) as u32).to_be_bytes());
        out.extend(a);
        out.extend(s);
    }
    std::fs::write(path, &out).unwrap();
    println!("{} rows, {} bytes", rows::values().len(), out.len());
}

fn main() {
    let args: Vec<String> = std::env::args().collect();
    if args.len() == 3 && args[1] == "record" {
        return record(&args[2]);
    }
    let seed = args.get(1).and_then(|s| s.parse::<u64>().ok()).unwrap_or(1);
    let mut r = Random(seed.wrapping_mul(0x9E37_79B9_7F4A_7C15) | 1);
    #[cfg(not(model))]
    texts(&mut r);
    all_coercions(&mut r);
    decimals::all(&mut r);
    #[cfg(not(model))]
    conversions(&mut r);
    println!("all agree");
}
