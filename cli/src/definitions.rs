//! The members and entries of a definition.
use crate::library::{self, Entry, Member};
use crate::names::Names;
use crate::sections::Listed;

pub fn members<'a>(file: &'a [u8], d: &Listed) -> impl Iterator<Item = Member> + 'a {
    let at = d.at;
    (0..d.count).map(move |k| library::member(file, at, k))
}

pub fn entries<'a>(file: &'a [u8], d: &Listed) -> impl Iterator<Item = Entry> + 'a {
    let at = d.at;
    (0..d.count).map(move |k| library::entry(file, at, k))
}

/// "structure 0x40", "enum 0x40", with the word of the name where it is known.
pub fn shown(d: &Listed, names: &Names) -> String {
    format!("{} {}", if d.is_enum { "enum" } else { "structure" }, names.shown(d.name))
}
