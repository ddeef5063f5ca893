//! Texts of all forms.
use super::decimal::{decimal, DECIMALS};
use crate::rng::Rng;

/// Words that enums name their entries by.
pub const WORDS: [&str; 17] = [
    "a", "b", "red", "Blue", "FLAG_A", "FLAG_B", "true", "x1", "hash_1F", "0x2A", "0x1G", "nanx", "inf_", "-", "1x", "k", "1.5",
];

const NUMBERS: [&str; 40] = [
    "0", "1", "7", "-1", "+5", "-0", "007", "255", "256", "-128", "65536", "2147483648", "4294967295", "4294967296",
    "9223372036854775807", "9223372036854775808", "-9223372036854775808", "18446744073709551615", "+18446744073709551615",
    "16777217", "16777219", "0x0", "0x1F", "0X1f", "0xFFFFFFFF", "0x7FFFFFFFFFFFFFFF", "0x8000000000000000",
    "0xFFFFFFFFFFFFFFFF", "0x-1", "0x+1", "0x-8000000000000000", "0Xff", "00x1", "+0", "12", "99", "31", "32", "0x20", "-31",
];

const NOT_NUMBERS: [&str; 36] = [
    "0x", "0X", "0x-", "0x+", "0xG", "0x 1", "0x10000000000000000", "0x-8000000000000001", "-", "+", "--1", "+-1", "1-",
    "1 2", "tru", "truee", "e5", ".", "-.", "+.e1", "1e", "1e+", ".e5", "in", "infinit", "nana", "0x1.5", "1_0",
    "1.2.3", "..", "+.", "5..", "1 .5", "1,5", "1.5f", ".-5",
];

/// Floats that are no decimals of one to nine digits.
pub const FLOATS: [&str; 32] = [
    "1e5", "1E5", "1.e5", ".5e-3", "1e+10", "inf", "-inf", "+INF", "Infinity", "nan", "NaN", "-nan", "9223372036854775808.0",
    "-9223372036854775809", "18446744073709551616", "99999999999999999999", "0e0", "1e999", "1e-999", "+1e1", "123456789e12",
    "-18446744073709551615", "1.5e0", "-1.5E0", "000000000.5", "1.000000000", "0000000000.", "0.1234567890", "1234567890.5", "-1234567890.",
    "+12345.67890", "-.0000000001",
];

const HASHES: [&str; 18] = [
    "hash_1F", "hash_", "hash_0x1F", "hash_FFFFFFFF", "hash_100000000", "hash_+1", "hash_-1", "hash_g", "0x1F", "0X1F",
    "0xFFFFFFFF", "0x100000000", "0x+1", "0x-1", "0x", "Hash_1F", "prop_bench", "hash_ 1",
];

fn blanks(rng: &mut Rng) -> Vec<u8> {
    let n = rng.small(5);
    (0..n).map(|_| *rng.pick(&[32, 32, 9, 10, 11, 12, 13])).collect()
}

/// With blanks around it, now and then.
pub fn around(rng: &mut Rng, t: &str) -> Vec<u8> {
    if rng.chance(3, 4) {
        return t.as_bytes().to_vec();
    }
    [blanks(rng), t.as_bytes().to_vec(), blanks(rng)].concat()
}

fn random_case(rng: &mut Rng, t: &str) -> String {
    t.chars().map(|c| if rng.chance(1, 2) { c.to_ascii_uppercase() } else { c }).collect()
}

/// Bytes of any kind below 128.
pub fn any(rng: &mut Rng, most: usize) -> Vec<u8> {
    let n = rng.small(most);
    match rng.below(3) {
        0 => (0..n).map(|_| rng.byte() & 127).collect(),
        1 => (0..n).map(|_| *rng.pick(b"0123456789+-.eExXabcfinty_ ,\t")).collect(),
        _ => (0..n).map(|_| rng.range(33, 126) as u8).collect(),
    }
}

/// Pieces of numbers and words put together.
pub fn pieces(rng: &mut Rng) -> Vec<u8> {
    const P: [&str; 24] = [
        "0x", "0X", "+", "-", ".", "e", "E", "1", "9", "12", "007", "fF", "G", "a", "_", "hash_", "inf", "infinity", "nan",
        "true", "false", " ", ",", "\t",
    ];
    let n = rng.range(1, 5);
    (0..n).flat_map(|_| rng.pick(&P).bytes().collect::<Vec<_>>()).collect()
}

fn digits(rng: &mut Rng) -> String {
    let n = match rng.below(4) {
        0 => rng.next() % 300,
        1 => rng.next() >> rng.below(64),
        2 => (1u64 << rng.below(64)).wrapping_add(rng.below(3) as u64).wrapping_sub(1),
        _ => rng.next(),
    };
    match rng.below(5) {
        0 => format!("{n}"),
        1 => format!("-{n}"),
        2 => format!("0x{n:x}"),
        3 => format!("0X{n:X}"),
        _ => format!("+{n}"),
    }
}

/// Every text that stands in a list here.
pub fn known() -> Vec<Vec<u8>> {
    let lists: [&[&str]; 6] = [&WORDS, &NUMBERS, &NOT_NUMBERS, &FLOATS, &HASHES, &DECIMALS];
    let mut out: Vec<Vec<u8>> = vec![b"".to_vec(), b" ".to_vec(), b"TRUE ".to_vec(), b"\tFalse".to_vec(), b"\x0b\x0c7\r\n".to_vec()];
    for t in lists.concat() {
        if !out.contains(&t.as_bytes().to_vec()) {
            out.push(t.as_bytes().to_vec());
        }
    }
    out
}

/// A whole number or a decimal; `floats` of a hundred are refused.
pub fn number(rng: &mut Rng, floats: usize) -> Vec<u8> {
    if rng.chance(floats, 100) {
        let t = *rng.pick(&FLOATS);
        return around(rng, t);
    }
    let t = match rng.below(11) {
        8..=10 => decimal(rng),
        0..=3 => rng.pick(&NUMBERS).to_string(),
        4 | 5 => digits(rng),
        6 => { let w = *rng.pick(&["true", "false"]); random_case(rng, w) }
        _ => String::new(),
    };
    around(rng, &t)
}

/// Something that no number is, most of the time.
pub fn no_number(rng: &mut Rng) -> Vec<u8> {
    let t = match rng.below(3) {
        0 => *rng.pick(&NOT_NUMBERS),
        1 => *rng.pick(&WORDS),
        _ => "wrong",
    };
    around(rng, t)
}

pub fn hash(rng: &mut Rng) -> Vec<u8> {
    let t = match rng.below(5) {
        0 | 1 => *rng.pick(&HASHES),
        2 => *rng.pick(&WORDS),
        3 => "",
        _ => return any(rng, 40),
    };
    around(rng, t)
}

/// Names parted by commas and blanks.
pub fn names(rng: &mut Rng) -> Vec<u8> {
    if rng.chance(1, 20) {
        return rng.pick(&[",", " , ", ",,\t,", "\n"]).as_bytes().to_vec();
    }
    let mut out = Vec::new();
    for _ in 0..rng.small(6) {
        out.extend_from_slice(rng.pick(&WORDS).as_bytes());
        out.extend_from_slice(rng.pick(&[",", " ", ", ", ",,", "\t", "\n ,"]).as_bytes());
    }
    if rng.chance(1, 3) {
        out.extend_from_slice(rng.pick(&WORDS).as_bytes());
    }
    if rng.chance(1, 8) { [blanks(rng), out, blanks(rng)].concat() } else { out }
}

/// A text of any form.
pub fn text(rng: &mut Rng, floats: usize) -> Vec<u8> {
    match rng.below(9) {
        8 => decimal(rng).into_bytes(),
        0 => number(rng, floats),
        1 => no_number(rng),
        2 => hash(rng),
        3 => names(rng),
        4 => any(rng, 60),
        5 => blanks(rng),
        6 if floats > 0 => pieces(rng),
        _ => rng.pick(&WORDS).as_bytes().to_vec(),
    }
}
