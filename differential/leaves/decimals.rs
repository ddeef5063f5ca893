//! Decimals as text, and lists of them, against the parses of Rust's standard library.
use crate::oracle::{decimal, fits, of, Fit};
use crate::value::MetaValue;
use crate::{coercions, done, leaf, rows, same, sheet, Random, Tally};
use std::time::Instant;

/// What a parse gives: a decimal its value, any other float text refusal 11.
fn parsed<T: Default>(t: &str, value: Option<T>) -> Fit<T> {
    match value {
        Some(_) if !decimal(t) => Fit { code: 11, value: T::default() },
        value => of(value),
    }
}

fn single(t: &str) -> Fit<u32> {
    parsed(t, t.parse::<f32>().ok().map(f32::to_bits))
}

/// A trimmed text that is no word and has no hexadecimal mark.
fn whole(t: &str) -> Fit<u64> {
    let integer = t.parse::<i64>().map(|x| x as u64).or_else(|_| t.parse::<u64>());
    match integer {
        Ok(x) => fits(x),
        Err(_) if t.is_empty() => fits(0),
        Err(_) => parsed(t, t.parse::<f64>().ok().map(|f| f as i64 as u64)),
    }
}

/// All parts in order, then their number.
fn vector(t: &str, wanted: usize) -> Fit<[u32; 4]> {
    let mut all = Vec::new();
    for part in t.split(|c: char| c == ',' || c.is_whitespace()).filter(|p| !p.is_empty()) {
        let x = single(part);
        if x.code != 0 {
            return Fit { code: x.code, value: [0; 4] };
        }
        all.push(x.value);
    }
    // No part at all is too few.
    let enough = all.len() >= wanted.max(1);
    all.resize(all.len().max(4), 0);
    of(enough.then(|| [all[0], all[1], all[2], all[3]]))
}

/// The sheet of one text.
fn row(t: &str) -> Vec<u8> {
    let mut s = vec![0, 0, 0, 1, 15, 0, 0, 0];
    for word in [0, 0, t.len() as u32, 0, 0] {
        s.extend(word.to_be_bytes());
    }
    s.extend(t.as_bytes());
    s
}

fn one(t: &str) {
    let s = row(t);
    same("float_of", t, leaf::float_of(&s), single(t.trim()));
    same("int_of", t, leaf::int_of(&s), whole(t.trim()));
    for wanted in 0..=4 {
        same("vec_of", (t, wanted), leaf::vec_of(&s, wanted), vector(t, wanted));
    }
}

/// All texts of at most so many of these characters.
fn each(letters: &[u8], most: usize, f: &mut impl FnMut(&str)) -> u64 {
    let mut count = 0;
    for length in 0..=most {
        let mut places = vec![0; length];
        loop {
            let t: String = places.iter().map(|k| letters[*k] as char).collect();
            f(&t);
            count += 1;
            let Some(k) = places.iter().rposition(|k| k + 1 < letters.len()) else { break };
            places[k] += 1;
            places[k + 1..].fill(0);
        }
    }
    count
}

/// Up to ten digits, a point among them; some halfway between two f32s, some with an exponent.
fn any(r: &mut Random) -> String {
    let mut s = format!("{:09}", r.next() % 1_000_000_000);
    s.truncate(1 + r.below(9));
    match r.below(10) {
        0 => s = format!("{}.5", (1 << 23) + r.next() % (1 << 23)),
        1 => s = format!("{}.{}", (1 << 22) + r.next() % (1 << 22), r.pick(&["25", "75", "24", "76"])),
        2 => {
            let shift = 1 + r.below(5);
            s = (((1 << 23) + r.next() % (1 << 23) << shift) + (1 << (shift - 1)) + r.next() % 2).to_string();
        }
        3 => s.push(*r.pick(&['.', '0', 'e', '7'])),
        4 => s = format!("{}{}", "0".repeat(r.below(5)), s),
        _ => s.insert(r.below(s.len() + 1), '.'),
    }
    format!("{}{s}", r.pick(&["", "", "-", "+"]))
}

/// A decimal, or up to seven with what parts them; a part is refused or no float now and then.
pub fn some(r: &mut Random) -> String {
    if r.below(2) == 0 {
        return format!("{}{}{}", r.pick(&["", "", " ", "\t\u{b}"]), any(r), r.pick(&["", "", "\n", " \u{c}"]));
    }
    let n = 1 + r.below(7);
    (0..n).map(|_| any(r) + *r.pick(&[",", ",", " ", " , ", "\t", "\r\n", ",,", ",nan ", ",x,", ",. "])).collect()
}

pub fn all(r: &mut Random) {
    let members = rows::members();
    let schema = [vec![9; 5], sheet::entries(&members), vec![9; 3]].concat();
    let mut tally = Tally::default();
    let t = Instant::now();
    let n = each(b"+-.0159", 6, &mut |t| {
        one(t);
        coercions(&MetaValue::Str(t.into()), &members, &schema, 5, &mut tally);
    });
    done("every coercion of all texts of up to six of + - . 0 1 5 9", n, t);
    let t = Instant::now();
    let n = each(b"+-.0123456789e", 6, &mut one);
    done("numbers and vectors of all texts of up to six signs, digits, points, e", n, t);
    let t = Instant::now();
    for _ in 0..20_000_000 {
        one(&some(r));
    }
    done("numbers and vectors of random texts of decimals", 20_000_000, t);
    let t = Instant::now();
    for _ in 0..1_000_000 {
        let items = (0..r.below(6)).map(|_| MetaValue::Str(some(r))).collect();
        let v = MetaValue::Array(crate::value::MetaArray { items, ..Default::default() });
        coercions(&v, &members, &schema, 5, &mut tally);
        coercions(&MetaValue::Str(some(r)), &members, &schema, 5, &mut tally);
    }
    done("every coercion of random texts of decimals, and of Arrays of them", 2_000_000, t);
}
