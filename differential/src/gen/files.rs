//! Files for the reader.
use super::plan::section;
use super::{damage, inputs, Size};
use crate::bytes::{push_u16, push_u32};
use crate::model::schema::{PMAP, PSCH, PSIN};
use crate::model::{build, GENEROUS};
use crate::rng::Rng;

/// A PMAP section of either layout, with rows that fit or don't.
fn map_section(rng: &mut Rng) -> Vec<u8> {
    let mut p = Vec::new();
    let n = rng.small(6);
    push_u32(&mut p, if rng.chance(3, 4) { rng.below(n + 2) as u32 } else { rng.u32() });
    let later = rng.chance(1, 3);
    if later {
        push_u16(&mut p, if rng.chance(1, 2) { 0 } else { 0x8000 | rng.u32() as u16 });
        push_u16(&mut p, 0x7070);
        push_u16(&mut p, n as u16);
        let more = rng.bytes(6);
        p.extend(more);
    } else {
        push_u16(&mut p, n as u16);
        push_u16(&mut p, rng.u32() as u16);
    }
    for _ in 0..n {
        for _ in 0..4 {
            push_u32(&mut p, if rng.chance(1, 2) { rng.u32() } else { rng.below(100) as u32 });
        }
    }
    match rng.below(8) {
        0 => p.truncate(rng.below(p.len() + 1)),
        1 => { let k = rng.below(20); let more = rng.bytes(k); p.extend(more); }
        _ => {}
    }
    section(PMAP, &p)
}

/// Sections of all kinds, one after the other.
fn sections(rng: &mut Rng, size: Size) -> Vec<u8> {
    let mut out = Vec::new();
    if !rng.chance(1, 30) {
        let k = if rng.chance(1, 6) { 0 } else { rng.small(60) };
        let data = rng.bytes(k);
        out.extend(section(PSIN, &data));
    }
    for _ in 0..rng.range(0, 5) {
        let k = rng.small(30);
        let more = match rng.below(8) {
            0 => { let data = rng.bytes(k); section(PSIN, &data) }
            1..=3 => map_section(rng),
            4 | 5 => super::general_plan(rng, if size == Size::Full { Size::Small } else { size }).bytes(),
            6 => { let data = rng.bytes(k); section(PSCH, &data) }
            _ => { let data = rng.bytes(k); section(rng.u32(), &data) }
        };
        out.extend(more);
    }
    if rng.chance(1, 6) {
        let k = rng.below(8);
        let tail = rng.bytes(k);
        out.extend(tail);
    }
    out
}

/// File `number` of a seed.
pub fn file(rng: &mut Rng, size: Size) -> Vec<u8> {
    let size = if size == Size::Full && !rng.chance(1, 50) { Size::Small } else { size };
    let mut out = match rng.below(10) {
        0..=4 => {
            let (_, sheet, schema) = inputs(rng, size);
            match build(rng.chance(1, 3), &sheet, &schema, &GENEROUS).answer {
                Ok(pack) => pack.file,
                Err(_) => schema,
            }
        }
        5 => { let k = rng.below(40); rng.bytes(k) }
        _ => sections(rng, size),
    };
    if rng.chance(1, 12) {
        // The smallest files that are refused.
        out.truncate(rng.below(17));
    }
    if rng.chance(1, 3) {
        damage::damage(rng, &mut out);
    }
    if rng.chance(1, 4) {
        let (k, more) = (rng.below(3), sections(rng, size));
        out = match k { 0 => [out, more].concat(), 1 => [more, out].concat(), _ => [&out[..], &more, &out].concat() };
    }
    out
}
