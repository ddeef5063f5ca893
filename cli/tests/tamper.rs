//! A pack with one thing wrong: tamper IN OUT WHAT NUMBER...
//!
//!   remove NAME       without the definitions of a name
//!   double NAME       with the first definition of a name once more, at the end
//!   add NAME          with a further definition, a copy of the first one under another name
//!   more NAME         with the last member of a structure once more
//!   gap BLOCK N       with N bytes more behind a block, which no block owns
//!   word BYTE VALUE   with another number of four bytes at a place
//!   cut N             without its last N bytes
use std::{env, fs, process};

fn u16_at(b: &[u8], at: usize) -> usize {
    u16::from_be_bytes([b[at], b[at + 1]]) as usize
}

fn u32_at(b: &[u8], at: usize) -> u32 {
    u32::from_be_bytes([b[at], b[at + 1], b[at + 2], b[at + 3]])
}

fn put(b: &mut [u8], at: usize, value: u32) {
    b[at..at + 4].copy_from_slice(&value.to_be_bytes());
}

/// The sections of a pack: each with its head.
fn sections(file: &[u8]) -> Vec<Vec<u8>> {
    let (mut out, mut at) = (Vec::new(), 0);
    while at + 8 <= file.len() {
        let end = at + u32_at(file, at + 4) as usize;
        out.push(file[at..end].to_vec());
        at = end;
    }
    out
}

/// The definitions of a PSCH section: name and bytes.
fn definitions(s: &[u8]) -> Vec<(u32, Vec<u8>)> {
    let one = |i: usize| {
        let (name, at) = (u32_at(s, 12 + 8 * i), u32_at(s, 16 + 8 * i) as usize);
        let length = match s[at] {
            0 => 12 + 12 * u16_at(s, at + 2),
            _ => 4 + 8 * (u32_at(s, at) & 0xFF_FFFF) as usize,
        };
        (name, s[at..at + length].to_vec())
    };
    (0..u32_at(s, 8) as usize).map(one).collect()
}

/// A PSCH section of definitions.
fn psch(list: &[(u32, Vec<u8>)]) -> Vec<u8> {
    let mut at = 12 + 8 * list.len();
    let mut out = [b"PSCH".to_vec(), vec![0; 4], (list.len() as u32).to_be_bytes().to_vec()].concat();
    for (name, bytes) in list {
        out.extend(name.to_be_bytes());
        out.extend((at as u32).to_be_bytes());
        at += bytes.len();
    }
    list.iter().for_each(|(_, bytes)| out.extend(bytes));
    let length = out.len() as u32;
    put(&mut out, 4, length);
    out
}

/// The last member of a structure once more.
fn more(body: &mut Vec<u8>) {
    let count = u16_at(body, 2) as u16 + 1;
    body[2..4].copy_from_slice(&count.to_be_bytes());
    body.extend_from_within(body.len() - 12..);
}

/// Bytes behind a block: those of later blocks move, and so do their places.
fn gap(parts: &mut [Vec<u8>], block: usize, more: usize) {
    let row = 16 + 16 * (block - 1);
    let end = (u32_at(&parts[1], row + 4) + u32_at(&parts[1], row + 12)) as usize;
    let tail = parts[0].split_off(end);
    parts[0].extend(vec![0; more]);
    parts[0].extend(tail);
    let length = parts[0].len() as u32;
    put(&mut parts[0], 4, length);
    for k in block..u16_at(&parts[1], 12) {
        let at = 16 + 16 * k + 4;
        let place = u32_at(&parts[1], at) + more as u32;
        put(&mut parts[1], at, place);
    }
}

fn number(word: &str) -> u32 {
    let parsed = match word.strip_prefix("0x") {
        Some(digits) => u32::from_str_radix(digits, 16),
        None => word.parse(),
    };
    parsed.expect("a number")
}

fn main() {
    let words: Vec<String> = env::args().skip(1).collect();
    let [from, to, what, numbers @ ..] = &words[..] else {
        eprintln!("tamper IN OUT WHAT NUMBER...");
        process::exit(2);
    };
    let mut file = fs::read(from).expect("a pack");
    let n: Vec<u32> = numbers.iter().map(|w| number(w)).collect();
    let mut parts = sections(&file);
    let mut list = definitions(&parts[2]);
    match (what.as_str(), &n[..]) {
        ("remove", [name]) => list.retain(|d| d.0 != *name),
        ("double", [name]) => list.push(list.iter().find(|d| d.0 == *name).expect("a definition").clone()),
        ("add", [name]) => list.push((*name, list[0].1.clone())),
        ("more", [name]) => more(&mut list.iter_mut().find(|d| d.0 == *name).expect("a definition").1),
        ("gap", [block, more]) => gap(&mut parts, *block as usize, *more as usize),
        ("word" | "cut", _) => {}
        _ => panic!("what is {what}?"),
    }
    parts[2] = psch(&list);
    let made = parts.concat();
    match (what.as_str(), &n[..]) {
        ("word", [at, value]) => put(&mut file, *at as usize, *value),
        ("cut", [bytes]) => file.truncate(file.len() - *bytes as usize),
        _ => file = made,
    }
    fs::write(to, file).expect("a file");
}
