//! How two definitions of one name differ.
use crate::definitions::{entries, members};
use crate::library::{Entry, Member};
use crate::names::Names;
use crate::sections::Listed;

/// How two definitions differ, each with the file that it stands in; none where they are the same.
pub fn difference(file: &[u8], d: &Listed, other: &[u8], e: &Listed, names: &Names) -> Option<String> {
    if d.unknown != e.unknown {
        return Some(format!("unknown byte {} and {}", d.unknown, e.unknown));
    }
    if d.size != e.size {
        return Some(format!("size {} and {}", d.size, e.size));
    }
    if d.count != e.count {
        return Some(format!("{} and {} {}", d.count, e.count, if d.is_enum { "entries" } else { "members" }));
    }
    let number = 1u32..;
    if d.is_enum {
        let mut pairs = entries(file, d).zip(entries(other, e)).zip(number);
        return pairs.find_map(|((x, y), k)| entry(&x, &y, names).map(|text| format!("entry {k}{text}")));
    }
    let mut pairs = members(file, d).zip(members(other, e)).zip(number);
    pairs.find_map(|((x, y), k)| member(&x, &y, names).map(|text| format!("member {k}{text}")))
}

/// The first of two members' numbers that differ.
fn member(x: &Member, y: &Member, names: &Names) -> Option<String> {
    if x.name != y.name {
        return Some(format!(" is {} and {}", names.shown(x.name), names.shown(y.name)));
    }
    let numbers = [
        ("type", x.kind, y.kind),
        ("subtype", x.subtype, y.subtype),
        ("offset", x.offset, y.offset),
        ("reference", x.reference, y.reference),
    ];
    let (what, a, b) = numbers.into_iter().find(|(_, a, b)| a != b)?;
    Some(format!(", {}: {what} 0x{a:X} and 0x{b:X}", names.shown(x.name)))
}

fn entry(x: &Entry, y: &Entry, names: &Names) -> Option<String> {
    if x.name != y.name {
        return Some(format!(" is {} and {}", names.shown(x.name), names.shown(y.name)));
    }
    (x.value != y.value).then(|| format!(", {}: value {} and {}", names.shown(x.name), x.value as i32, y.value as i32))
}
