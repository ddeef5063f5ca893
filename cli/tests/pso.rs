//! Sheets, sections and definitions as bytes, for the programs that make test files.
#![allow(dead_code)]

pub fn words(numbers: &[u32]) -> Vec<u8> {
    numbers.iter().flat_map(|n| n.to_be_bytes()).collect()
}

/// A sheet's row: kind, name, fields.
pub fn row(kind: u32, name: u32, fields: [u32; 4]) -> Vec<u8> {
    [words(&[kind << 24, name]), words(&fields)].concat()
}

pub fn section(name: &[u8; 4], content: &[u8]) -> Vec<u8> {
    [name.as_slice(), &words(&[content.len() as u32 + 8]), content].concat()
}

/// A structure's bytes: its size and its members, three words each.
pub fn structure(size: u32, members: &[[u32; 3]]) -> Vec<u8> {
    [words(&[members.len() as u32, size, 0]), words(&members.concat())].concat()
}

/// A PSCH section: names with the number of their body, bodies.
pub fn schema(names: &[(u32, usize)], bodies: &[Vec<u8>]) -> Vec<u8> {
    let mut places = vec![12 + 8 * names.len() as u32];
    bodies.iter().for_each(|b| places.push(places[places.len() - 1] + b.len() as u32));
    let index: Vec<(u32, u32)> = names.iter().map(|(name, body)| (*name, places[*body])).collect();
    index_section(&index, &bodies.concat())
}

/// A PSCH section: names with their places, and what stands behind the index.
pub fn index_section(index: &[(u32, u32)], bodies: &[u8]) -> Vec<u8> {
    let entries = index.iter().flat_map(|(name, place)| words(&[*name, *place]));
    let content: Vec<u8> =
        words(&[index.len() as u32]).into_iter().chain(entries).chain(bodies.iter().copied()).collect();
    section(b"PSCH", &content)
}
