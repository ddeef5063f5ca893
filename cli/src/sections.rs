//! A file's sections and the definitions of its PSCH sections, with the place of what is wrong in them.
use crate::bytes::{u16_at, u32_at};

#[derive(Clone, Copy)]
pub struct Section {
    pub name: [u8; 4],
    pub at: usize,
    pub length: usize,
}

impl Section {
    pub fn is(&self, name: &[u8; 4]) -> bool {
        self.name == *name
    }

    /// The name as text, or as a number where it is none.
    pub fn shown(&self) -> String {
        match std::str::from_utf8(&self.name) {
            Ok(s) if s.bytes().all(|b| b.is_ascii_graphic()) => s.to_string(),
            _ => format!("0x{:08X}", u32::from_be_bytes(self.name)),
        }
    }
}

/// What is wrong, by its refusal's number, and where.
pub struct Fault {
    pub code: u32,
    pub place: String,
}

fn fault<T>(code: u32, place: String) -> Result<T, Fault> {
    Err(Fault { code, place })
}

/// The sections of a file one after the other. A broken one is the last.
pub struct Walk<'a> {
    file: &'a [u8],
    at: usize,
}

pub fn walk(file: &[u8]) -> Walk<'_> {
    Walk { file, at: 0 }
}

impl Iterator for Walk<'_> {
    type Item = Result<Section, Fault>;

    /// Fewer than 8 last bytes are no section.
    fn next(&mut self) -> Option<Result<Section, Fault>> {
        let (file, at) = (self.file, self.at);
        let left = file.len() - at;
        if left < 8 {
            return None;
        }
        let length = u32_at(file, at + 4) as usize;
        let section = Section { name: [file[at], file[at + 1], file[at + 2], file[at + 3]], at, length };
        if length < 8 || length > left {
            self.at = file.len();
            let name = section.shown();
            return Some(fault(4, format!("section {name} at byte {at}: length {length}, {left} bytes to the end")));
        }
        self.at += length;
        Some(Ok(section))
    }
}

/// The sections before the first broken one.
pub fn sections(file: &[u8]) -> impl Iterator<Item = Section> + '_ {
    walk(file).map_while(Result::ok)
}

/// The sections of a name, as far as all are sound.
fn named<'a>(file: &'a [u8], name: &'static [u8; 4]) -> impl Iterator<Item = Section> + 'a {
    sections(file).filter(move |s| s.is(name))
}

/// A definition of an index: a structure or an enum, its numbers and its place in the file.
#[derive(Clone, Copy)]
pub struct Listed {
    pub name: u32,
    pub is_enum: bool,
    pub unknown: u8,
    pub size: u32,
    pub count: u32,
    pub at: usize,
}

/// The bytes of a section.
fn bytes<'a>(file: &'a [u8], section: &Section) -> &'a [u8] {
    &file[section.at..section.at + section.length]
}

/// How many entries the index of a PSCH section has.
fn index_length(s: &[u8], at: usize) -> Result<usize, Fault> {
    if s.len() < 12 {
        return fault(5, format!("PSCH at byte {at}: {} bytes, the head has 12", s.len()));
    }
    let count = u32_at(s, 8) as usize;
    if count > (s.len() - 12) / 8 {
        return fault(5, format!("PSCH at byte {at}: an index of {count} entries in {} bytes", s.len()));
    }
    Ok(count)
}

/// The definitions of a PSCH section in index order, or what is wrong in it.
fn each_listed<'a>(file: &'a [u8], section: &Section) -> impl Iterator<Item = Result<Listed, Fault>> + 'a {
    let (s, at) = (bytes(file, section), section.at);
    let (count, broken) = match index_length(s, at) {
        Ok(count) => (count, None),
        Err(f) => (0, Some(Err(f))),
    };
    broken.into_iter().chain((0..count).map(move |i| listed(s, at, i)))
}

/// Whether a file has a PSCH section, be it a broken one at the front.
pub fn has_definitions(file: &[u8]) -> bool {
    file.starts_with(b"PSCH") || named(file, b"PSCH").next().is_some()
}

/// The definitions of all PSCH sections in index order, one after the other; the file is sound.
pub fn definitions(file: &[u8]) -> impl Iterator<Item = Listed> + '_ {
    named(file, b"PSCH").flat_map(|s| each_listed(file, &s)).map_while(Result::ok)
}

/// The definition of an index entry.
fn listed(s: &[u8], section_at: usize, i: usize) -> Result<Listed, Fault> {
    let (name, at) = (u32_at(s, 12 + 8 * i), u32_at(s, 16 + 8 * i) as usize);
    let here = || format!("PSCH at byte {section_at}, entry {} of the index: definition 0x{name:X} at {at}", i + 1);
    let inside = |from: usize, n: usize| from + n <= s.len();
    if !inside(at, 4) {
        return fault(5, format!("{} of {} bytes", here(), s.len()));
    }
    let mut d = Listed { name, is_enum: s[at] == 1, unknown: 0, size: 0, count: 0, at: section_at + at };
    match s[at] {
        0 => {
            if !inside(at, 8) {
                return fault(5, format!("{} of {} bytes", here(), s.len()));
            }
            (d.unknown, d.count, d.size) = (s[at + 1], u16_at(s, at + 2) as u32, u32_at(s, at + 4));
            if d.count > 0 && !inside(at + 12, 12 * d.count as usize) {
                return fault(5, format!("{} with {} members, section of {} bytes", here(), d.count, s.len()));
            }
        }
        1 => {
            d.count = u32_at(s, at) & 0xFF_FFFF;
            if d.count > 0 && !inside(at + 4, 8 * d.count as usize) {
                return fault(5, format!("{} with {} entries, section of {} bytes", here(), d.count, s.len()));
            }
        }
        top => return fault(6, format!("{}: top byte {top}", here())),
    }
    Ok(d)
}

/// The index entries of all PSCH sections, as many as their sections can hold.
pub fn index_entries(file: &[u8]) -> usize {
    let counts = named(file, b"PSCH").filter(|s| s.length >= 12);
    counts.map(|s| (u32_at(file, s.at + 8) as usize).min((s.length - 12) / 8)).sum()
}

/// How many rows a PMAP section has and where they start, or how long it must be.
fn map_rows(s: &[u8]) -> Result<(usize, usize), usize> {
    if s.len() < 16 {
        return Err(16);
    }
    let (mut count, mut rows) = (u16_at(s, 12) as usize, 16);
    if count == 0 || count >= 0x8000 {
        if s.len() < 24 {
            return Err(24);
        }
        (count, rows) = (u16_at(s, 16) as usize, 24);
    }
    match rows + 16 * count {
        need if s.len() < need => Err(need),
        _ => Ok((count, rows)),
    }
}

/// A row of a block list: the block's name, its place in the data section, its length.
#[derive(Clone, Copy)]
pub struct Block {
    pub name: u32,
    pub place: u32,
    pub length: u32,
}

/// The blocks of all PMAP sections in file order; the file is sound.
pub fn blocks(file: &[u8]) -> impl Iterator<Item = Block> + '_ {
    named(file, b"PMAP").flat_map(|section| {
        let s = bytes(file, &section);
        let (count, rows) = map_rows(s).unwrap_or_default();
        let number = move |k: usize, field: usize| u32_at(s, rows + 16 * k + 4 * field);
        (0..count).map(move |k| Block { name: number(k, 0), place: number(k, 1), length: number(k, 3) })
    })
}

/// A PMAP section that is too short for its rows.
fn map_fault(file: &[u8], section: &Section) -> Option<Fault> {
    let need = map_rows(bytes(file, section)).err()?;
    Some(Fault { code: 16, place: format!("PMAP at byte {}: {} bytes, {need} are due", section.at, section.length) })
}

/// The first fault in the index of a PSCH section.
fn index_fault(file: &[u8], section: &Section) -> Option<Fault> {
    each_listed(file, section).find_map(Result::err)
}

/// The first fault of a schema file, in file order.
pub fn schema_fault(file: &[u8]) -> Option<Fault> {
    walk(file).find_map(|s| match s {
        Ok(s) if s.is(b"PSCH") => index_fault(file, &s),
        Ok(_) => None,
        Err(broken) => Some(broken),
    })
}

/// The first fault of a file for the reader.
pub fn file_fault(file: &[u8]) -> Option<Fault> {
    if file.len() < 4 || file[..4] != *b"PSIN" {
        let place = match file {
            [] => "the file is empty".into(),
            _ => format!("the file starts with {:02X?}", &file[..file.len().min(4)]),
        };
        return Some(Fault { code: 15, place });
    }
    walk(file).find_map(|s| match s {
        Ok(s) if s.is(b"PMAP") => map_fault(file, &s),
        Ok(s) if s.is(b"PSCH") => index_fault(file, &s),
        Ok(_) => None,
        Err(broken) => Some(broken),
    })
}
