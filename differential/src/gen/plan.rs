//! A schema file as a plan: sections, definitions, places.
use crate::bytes::{push_u16, push_u32, put_u32};
use crate::model::schema::{Member, PSCH};

#[derive(Clone, Debug)]
pub enum Body {
    /// Unknown byte, size, the word that nobody reads, members.
    Structure(u8, u32, u32, Vec<Member>),
    Enum(Vec<(u32, u32)>),
    /// The place of an earlier definition of the section.
    Same(usize),
    /// Any place.
    Place(u32),
    /// A first word of any kind.
    Word(u32),
}

#[derive(Clone, Debug)]
pub struct Def {
    pub name: u32,
    pub body: Body,
    /// Bytes in front of it that nobody reads.
    pub gap: Vec<u8>,
}

#[derive(Clone, Debug)]
pub enum Section {
    Psch(Vec<Def>),
    Other(u32, Vec<u8>),
}

#[derive(Clone, Debug, Default)]
pub struct Plan {
    pub sections: Vec<Section>,
    pub tail: Vec<u8>,
}

fn put_body(out: &mut Vec<u8>, body: &Body) {
    match body {
        Body::Structure(unknown, size, word, members) => {
            out.extend_from_slice(&[0, *unknown]);
            push_u16(out, members.len() as u16);
            push_u32(out, *size);
            push_u32(out, *word);
            for m in members {
                push_u32(out, m.name);
                out.extend_from_slice(&[m.ty, m.subtype]);
                push_u16(out, m.offset);
                push_u32(out, m.reference);
            }
        }
        Body::Enum(entries) => {
            push_u32(out, 1 << 24 | entries.len() as u32);
            for (n, v) in entries {
                push_u32(out, *n);
                push_u32(out, *v);
            }
        }
        Body::Word(w) => push_u32(out, *w),
        Body::Same(_) | Body::Place(_) => {}
    }
}

fn psch(defs: &[Def]) -> Vec<u8> {
    let mut out = vec![0; 12 + 8 * defs.len()];
    put_u32(&mut out, 0, PSCH);
    put_u32(&mut out, 8, defs.len() as u32);
    let mut places: Vec<u32> = Vec::new();
    for (i, d) in defs.iter().enumerate() {
        out.extend_from_slice(&d.gap);
        let place = match d.body {
            Body::Same(k) => places.get(k).copied().unwrap_or(0),
            Body::Place(p) => p,
            _ => out.len() as u32,
        };
        put_body(&mut out, &d.body);
        places.push(place);
        put_u32(&mut out, 12 + 8 * i, d.name);
        put_u32(&mut out, 16 + 8 * i, place);
    }
    let n = out.len() as u32;
    put_u32(&mut out, 4, n);
    out
}

/// A section of any name.
pub fn section(name: u32, payload: &[u8]) -> Vec<u8> {
    let mut out = Vec::new();
    push_u32(&mut out, name);
    push_u32(&mut out, 8 + payload.len() as u32);
    out.extend_from_slice(payload);
    out
}

impl Plan {
    pub fn bytes(&self) -> Vec<u8> {
        let mut out = Vec::new();
        for s in &self.sections {
            match s {
                Section::Psch(defs) => out.extend(psch(defs)),
                Section::Other(name, payload) => out.extend(section(*name, payload)),
            }
        }
        out.extend_from_slice(&self.tail);
        out
    }

    /// One PSCH section with these definitions.
    pub fn of(defs: Vec<(u32, Body)>) -> Plan {
        let defs = defs.into_iter().map(|(name, body)| Def { name, body, gap: Vec::new() }).collect();
        Plan { sections: vec![Section::Psch(defs)], tail: Vec::new() }
    }
}

pub fn member(name: u32, ty: u8, subtype: u8, offset: u16, reference: u32) -> Member {
    Member { name, ty, subtype, offset, reference }
}
