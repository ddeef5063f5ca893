//! The file: PSIN, PMAP and PSCH, in that order.
use super::schema::{Schema, PMAP, PSCH, PSIN};
use super::state::State;
use crate::bytes::{push_u16, push_u32};

/// How long the file will be.
pub fn length(schema: &Schema, state: &State) -> u64 {
    let data: u64 = state.blocks.iter().map(|b| b.length).sum();
    let structures = state.structures.names.iter().map(|n| 12 + 12 * schema.structure(*n).unwrap().members.len() as u64);
    let enums = state.enums.names.iter().map(|n| 4 + 8 * schema.enumeration(*n).unwrap().entries.len() as u64);
    let used = (state.structures.names.len() + state.enums.names.len()) as u64;
    16 + data + 16 + 16 * state.blocks.len() as u64 + 12 + 8 * used + structures.sum::<u64>() + enums.sum::<u64>()
}

/// The file of a root with the given pointer.
pub fn file(schema: &Schema, state: &State, root: u32) -> Vec<u8> {
    let mut out = data_section(state);
    map_section(state, root % 4_096, &mut out);
    schema_section(schema, state, &mut out);
    out
}

fn data_section(state: &State) -> Vec<u8> {
    let mut places = Vec::new();
    let mut end = 16u64;
    for b in &state.blocks {
        places.push(end);
        end += b.length;
    }
    let mut out = vec![0; end as usize];
    out[..4].copy_from_slice(&PSIN.to_be_bytes());
    out[4..8].copy_from_slice(&(end as u32).to_be_bytes());
    for item in &state.items {
        let at = places[item.block as usize - 1] as usize + item.start as usize;
        out[at..at + item.bytes.len()].copy_from_slice(&item.bytes);
    }
    out
}

fn map_section(state: &State, root: u32, out: &mut Vec<u8>) {
    push_u32(out, PMAP);
    push_u32(out, 16 + 16 * state.blocks.len() as u32);
    push_u32(out, root);
    push_u16(out, state.blocks.len() as u16);
    push_u16(out, 0x7070);
    let mut place = 16u64;
    for b in &state.blocks {
        push_u32(out, b.name);
        push_u32(out, place as u32);
        push_u32(out, 0);
        push_u32(out, b.length as u32);
        place += b.length;
    }
}

fn schema_section(schema: &Schema, state: &State, out: &mut Vec<u8>) {
    let mut index = Vec::new();
    let mut body = Vec::new();
    for name in &state.structures.names {
        let s = schema.structure(*name).unwrap();
        index.push((*name, body.len()));
        body.extend_from_slice(&[0, s.unknown]);
        push_u16(&mut body, s.members.len() as u16);
        push_u32(&mut body, s.size);
        push_u32(&mut body, 0);
        for m in s.members.iter() {
            push_u32(&mut body, m.name);
            body.extend_from_slice(&[m.ty, m.subtype]);
            push_u16(&mut body, m.offset);
            push_u32(&mut body, m.reference);
        }
    }
    for name in &state.enums.names {
        let e = schema.enumeration(*name).unwrap();
        index.push((*name, body.len()));
        push_u32(&mut body, 1 << 24 | e.entries.len() as u32);
        for (n, v) in e.entries.iter() {
            push_u32(&mut body, *n);
            push_u32(&mut body, *v);
        }
    }
    let base = 12 + 8 * index.len();
    push_u32(out, PSCH);
    push_u32(out, (base + body.len()) as u32);
    push_u32(out, index.len() as u32);
    for (name, at) in index {
        push_u32(out, name);
        push_u32(out, (base + at) as u32);
    }
    out.extend_from_slice(&body);
}
