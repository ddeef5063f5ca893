//! Refusals, remarks and types in words.
use crate::library::Remark;
use crate::names::Names;
use std::io;

/// A system's message without its number.
pub fn fault(e: &io::Error) -> String {
    let text = e.to_string();
    match text.find(" (os error") {
        Some(at) => text[..at].to_string(),
        None => text,
    }
}

/// Digits in groups of three.
pub fn commas(n: u64) -> String {
    let digits = n.to_string();
    let mut out = String::new();
    for (i, d) in digits.chars().enumerate() {
        if i > 0 && (digits.len() - i) % 3 == 0 {
            out.push(',');
        }
        out.push(d);
    }
    out
}

/// "1 block", "2 blocks".
pub fn count(n: u64, one: &str) -> String {
    format!("{} {one}{}", commas(n), if n == 1 { "" } else { "s" })
}

/// "1 entry", "2 entries".
pub fn count_as(n: u64, one: &str, many: &str) -> String {
    format!("{} {}", commas(n), if n == 1 { one } else { many })
}

/// Document 01's reason for a refusal.
pub fn refusal(code: u32) -> &'static str {
    match code {
        1 => "the sheet breaks its layout",
        2 => "a text byte is above 127",
        3 => "the root is no Struct",
        4 => "a section's length is below 8 or runs past the end",
        5 => "the head, the index, a definition's header or a member lies outside its PSCH section",
        6 => "a definition's top byte is neither 0 nor 1",
        7 => "the root type has no definition",
        8 => "a structure would start at depth 33, inline in 32 others",
        9 => "the charge would pass its cap",
        10 => "an item's block number would be above 4,095, or its start above 0xFFFFF",
        11 => "a floating-point text other than a decimal of one to nine digits",
        12 => "the work area is too short",
        13 => "the file is longer than the output or than 16,777,216 bytes",
        14 => "there are more different remarks than records",
        15 => "the magic PSIN is missing",
        16 => "PMAP is too short",
        17 => "there is no data section",
        18 => "there is no PMAP",
        _ => "unknown refusal",
    }
}

/// A refusal with its number, its reason and, where it is known, its place.
pub fn refused(code: u32, place: Option<&str>) -> String {
    let reason = refusal(code);
    match place {
        Some(p) => format!("refusal {code}: {reason} ({p})"),
        None => format!("refusal {code}: {reason}"),
    }
}

/// What a value is not, by the number of remark 2.
fn wanted(detail: u32) -> &'static str {
    const WANTED: [&str; 12] = [
        "a boolean",
        "an integer",
        "a float",
        "a vector2",
        "a vector3",
        "a vector4",
        "a string or name",
        "an enum member",
        "a flag set",
        "a structure",
        "an array",
        "a map",
    ];
    detail.checked_sub(1).and_then(|i| WANTED.get(i as usize)).unwrap_or(&"of the member's type")
}

/// A remark: the structure and member, then what was left out and why.
pub fn remark(r: &Remark, names: &Names) -> String {
    let d = r.detail;
    let text = match r.kind {
        1 => format!("the member does not fit the structure of {}", count(d as u64, "byte")),
        2 => format!("value is not {}", wanted(d)),
        3 => format!("string subtype {d} is not supported"),
        4 => format!("no definition of structure {}", names.shown(d)),
        5 => "an array without ARRAYINFO in its structure's definition".into(),
        6 => format!("map subtype {d} is not supported"),
        7 => format!("no definition of the map's pair structure {}", names.shown(d)),
        8 => format!("no definition of the array's element structure {}", names.shown(d)),
        9 => "an element of the array is not a structure".into(),
        10 => "an array of strings of length 0".into(),
        11 => format!("string subtype {d} is not supported in arrays"),
        12 => format!("element type 0x{d:02X} is not supported in arrays"),
        13 => format!("member type 0x{d:02X} is not supported"),
        k => format!("remark of unknown kind {k}, detail {d}"),
    };
    format!("{}: {text}", names.member(r.structure, r.member))
}

/// A member's type byte in words.
pub fn type_name(kind: u32) -> &'static str {
    match kind {
        0x00 => "bool",
        0x01 => "i8",
        0x02 => "u8",
        0x03 => "i16",
        0x04 => "u16",
        0x05 => "i32",
        0x06 => "u32",
        0x07 => "f32",
        0x08 => "vector2",
        0x09 | 0x14 => "vector3",
        0x0A | 0x15 => "vector4",
        0x0B => "string",
        0x0C => "structure",
        0x0D => "array",
        0x0E => "enum",
        0x0F => "flags",
        0x10 => "map",
        0x1E => "half float",
        0x20 => "i64",
        _ => "unknown",
    }
}
