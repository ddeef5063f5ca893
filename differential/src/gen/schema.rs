//! Random schemas whose members lead somewhere.
use super::edges::LARGE;
use super::plan::{Body, Def, Plan, Section};
use super::text::WORDS;
use crate::model::schema::{Member, PMAP, PSIN};
use crate::model::text::hash_text;
use crate::model::write::ARRAYINFO;
use crate::rng::Rng;

/// How wild a schema is.
#[derive(Clone, Copy)]
pub struct Mood {
    /// Of a hundred: members that don't fit, overlap, have odd subtypes or references.
    pub odd: usize,
    pub structures: usize,
    pub enums: usize,
    pub members: usize,
}

struct Draft {
    member: Member,
    /// The draft that the reference's low bits number.
    refers: Option<usize>,
}

struct Maker<'r> {
    rng: &'r mut Rng,
    mood: Mood,
    names: Vec<u32>,
    sizes: Vec<Option<u32>>,
    enums: Vec<u32>,
    drafts: Vec<Draft>,
    cursor: u32,
    next_name: u32,
}

const SCALARS: [u8; 15] = [0, 1, 2, 3, 4, 5, 6, 7, 8, 9, 0x0A, 0x14, 0x15, 0x1E, 0x20];
/// Names of raw blocks, of descriptors, and 0.
const SPECIAL: [u32; 11] = [0, 1, 2, 4, 5, 6, 7, 12, 200, 0x100, 0xFFFF_FFFF];

fn scalar_size(ty: u8) -> u32 {
    match ty {
        0..=2 => 1,
        3 | 4 | 0x1E => 2,
        5..=7 => 4,
        8 | 0x20 => 8,
        9 | 0x14 => 12,
        _ => 16,
    }
}

fn name_pool(rng: &mut Rng, n: usize, base: u32, odd: usize) -> Vec<u32> {
    let mut out: Vec<u32> = Vec::new();
    for i in 0..n {
        let name = match rng.below(100) {
            x if x < odd / 3 => *rng.pick(&SPECIAL),
            x if x < odd / 2 => rng.u32(),
            x if x < odd * 2 / 3 && i > 0 => out[rng.below(i)],
            _ => base + i as u32,
        };
        out.push(name);
    }
    out
}

impl Maker<'_> {
    fn odd(&mut self) -> bool {
        let odd = self.mood.odd;
        self.rng.chance(odd, 100)
    }

    /// A structure's name: a later one most of the time, so that nesting ends.
    fn structure_name(&mut self, from: usize) -> u32 {
        if self.odd() {
            return match self.rng.below(3) {
                0 => self.rng.u32() & 0xFF,
                1 => 0x6000,
                _ => { let k = self.rng.below(self.names.len()); self.names[k] }
            };
        }
        let k = if from + 1 < self.names.len() { self.rng.range(from + 1, self.names.len() - 1) } else { self.names.len() - 1 };
        self.names[k]
    }

    fn any_structure(&mut self) -> u32 {
        if self.odd() { self.rng.u32() & 0x1FF } else { let k = self.rng.below(self.names.len()); self.names[k] }
    }

    fn enum_name(&mut self) -> u32 {
        if self.enums.is_empty() || self.odd() { self.rng.u32() & 0xF } else { let k = self.rng.below(self.enums.len()); self.enums[k] }
    }

    fn size_of(&self, name: u32) -> u32 {
        self.names.iter().zip(&self.sizes).rev().find(|(n, s)| **n == name && s.is_some()).and_then(|(_, s)| *s).unwrap_or(8)
    }

    fn offset(&mut self, need: u32) -> u16 {
        let at = self.cursor;
        if self.odd() {
            return match self.rng.below(4) {
                0 => self.rng.below(at as usize + 1) as u16,
                1 => (at + self.rng.below(24) as u32) as u16,
                2 => self.rng.u32() as u16,
                _ => at.saturating_sub(1) as u16,
            };
        }
        self.cursor = at.saturating_add(need);
        at as u16
    }

    fn new_name(&mut self) -> u32 {
        let odd = self.mood.odd;
        self.next_name += 1;
        match self.rng.below(100) {
            x if x < odd / 4 => 0,
            x if x < odd / 2 => 0x41 + self.rng.below(4) as u32,
            _ => 0x40 + self.next_name,
        }
    }

    fn push(&mut self, ty: u8, subtype: u8, need: u32, reference: u32, refers: Option<usize>) {
        let offset = self.offset(need);
        let name = self.new_name();
        self.drafts.push(Draft { member: Member { name, ty, subtype, offset, reference }, refers });
    }

    /// A descriptor entry; its number. It may be a member with a name of its own.
    fn describe(&mut self, ty: u8, subtype: u8, reference: u32) -> usize {
        let name = if self.odd() { 0x41 + self.rng.below(6) as u32 } else { ARRAYINFO };
        let offset = if self.odd() { self.rng.u32() as u16 } else { 0 };
        self.drafts.push(Draft { member: Member { name, ty, subtype, offset, reference }, refers: None });
        self.drafts.len() - 1
    }

    fn member(&mut self, from: usize) {
        match self.rng.weighted(&[30, 9, 9, 13, 5, 5, 5, 1]) {
            0 => {
                let ty = *self.rng.pick(&SCALARS);
                let (subtype, reference) = if self.rng.chance(1, 6) { (self.rng.byte(), self.rng.u32()) } else { (0, 0) };
                self.push(ty, subtype, scalar_size(ty), reference, None);
            }
            1 => self.string(),
            2 => self.structure(from),
            3 => self.array(from),
            4 => {
                let (subtype, reference) = (self.named_subtype(), self.enum_name());
                self.push(0x0E, subtype, 4, reference, None);
            }
            5 => {
                let name = self.enum_name();
                let d = self.describe(0x0E, 0, name);
                let subtype = self.named_subtype();
                self.push(0x0F, subtype, 4, 0, Some(d));
            }
            6 => {
                let name = self.structure_name(from);
                let d = self.describe(0x0C, 0, name);
                let subtype = if self.odd() { self.rng.below(4) as u8 } else { 1 };
                self.push(0x10, subtype, 24, 0, Some(d));
            }
            _ => {
                let ty = if self.rng.chance(1, 2) { self.rng.below(0x24) as u8 } else { self.rng.byte() };
                let (subtype, reference) = (self.rng.below(10) as u8, self.rng.u32());
                self.push(ty, subtype, 4, reference, None);
            }
        }
    }

    fn named_subtype(&mut self) -> u8 {
        *self.rng.pick(&[0, 0, 1, 2, 3, 9])
    }

    fn string(&mut self) {
        let subtype = if self.odd() { self.rng.below(12) as u8 } else { *self.rng.pick(&[0, 0, 1, 2, 3, 7, 8]) };
        let length = if self.rng.chance(1, 10) { self.rng.below(2) } else { self.rng.small(70) } as u32;
        let need = [length, 8, 8, 16, 4, 4, 4, 4, 4][subtype.min(8) as usize];
        let reference = length << 16 | self.rng.u32() & 0xFFFF;
        self.push(0x0B, subtype, need, reference, None);
    }

    fn structure(&mut self, from: usize) {
        if self.rng.chance(1, 2) {
            let name = self.structure_name(from);
            let size = self.size_of(name);
            self.push(0x0C, 0, size, name, None);
        } else {
            let name = self.any_structure();
            let subtype = *self.rng.pick(&[3, 3, 4, 1, 2, 255]);
            self.push(0x0C, subtype, 8, name, None);
        }
    }

    /// An element's type, subtype and reference, and its bytes.
    fn element(&mut self, from: usize) -> (u8, u8, u32, u32) {
        match self.rng.weighted(&[10, 7, 6, 5, 3, 1]) {
            0 => {
                let ty = *self.rng.pick(&SCALARS);
                let subtype = if self.rng.chance(1, 6) { self.rng.below(5) as u8 } else { 0 };
                let stride = if matches!(ty, 9 | 0x14) { 16 } else { scalar_size(ty) };
                (ty, subtype, 0, stride)
            }
            1 => {
                let subtype = if self.odd() { self.rng.below(12) as u8 } else { *self.rng.pick(&[0, 1, 2, 3, 7, 8]) };
                let length = if self.odd() { 0 } else { self.rng.range(1, 12) } as u32;
                (0x0B, subtype, length << 16, [length, 8, 8, 16, 4, 4, 4, 4, 4][subtype.min(8) as usize])
            }
            2 => {
                let name = self.structure_name(from);
                let subtype = *self.rng.pick(&[0, 0, 0, 1, 4]);
                (0x0C, subtype, name, self.size_of(name))
            }
            3 => (0x0C, 3, self.any_structure(), 8),
            4 => (0x0E, *self.rng.pick(&[0, 1, 2, 3]), self.enum_name(), 4),
            _ => (self.rng.below(0x24) as u8, self.rng.below(5) as u8, self.rng.u32(), 4),
        }
    }

    fn array(&mut self, from: usize) {
        let (ty, sub, reference, stride) = self.element(from);
        let d = self.describe(ty, sub, reference);
        let subtype = match self.rng.below(10) {
            0..=4 => 0,
            5 => 4,
            6..=8 => 1,
            _ => self.rng.byte(),
        };
        let embedded = !(subtype == 0 || (subtype == 4 && sub == 3));
        let count = match self.rng.below(12) {
            0 => 0,
            1 => self.rng.u32() & 0xFFFF,
            _ => self.rng.range(1, 5) as u32,
        };
        let need = if embedded { stride.saturating_mul(count).min(2_000) } else { 16 };
        self.push(0x0D, subtype, need, count << 16, Some(d));
    }

    /// The members in their order, with their references to one another as numbers.
    fn settle(&mut self) -> Vec<Member> {
        let n = self.drafts.len();
        let mut order: Vec<usize> = (0..n).collect();
        match self.rng.below(6) {
            0 => self.rng.shuffle(&mut order),
            1 => order.sort_by_key(|i| self.drafts[*i].member.name == ARRAYINFO),
            _ => {}
        }
        let mut place = vec![0; n];
        order.iter().enumerate().for_each(|(at, i)| place[*i] = at);
        let mut out = Vec::with_capacity(n);
        for i in order {
            let mut m = self.drafts[i].member;
            if let Some(d) = self.drafts[i].refers {
                let index = place[d] as u32;
                let low = if self.odd() {
                    match self.rng.below(4) {
                        0 => 0x1000 * self.rng.range(1, 15) as u32 + index,
                        1 => n as u32,
                        2 => self.rng.u32() & 0xFFFF,
                        _ => self.rng.below(n) as u32,
                    }
                } else {
                    index
                };
                m.reference |= low;
            }
            out.push(m);
        }
        out
    }

    fn define(&mut self, i: usize) -> Body {
        self.drafts.clear();
        self.cursor = if self.rng.chance(1, 8) { self.rng.below(9) as u32 } else { 0 };
        self.next_name = 0;
        for _ in 0..self.rng.small(self.mood.members) {
            self.member(i);
        }
        let members = self.settle();
        let size = match self.rng.below(100) {
            x if x < self.mood.odd / 2 => self.cursor.saturating_sub(self.rng.below(9) as u32),
            x if x < self.mood.odd * 9 / 10 => self.rng.below(40) as u32,
            x if x < self.mood.odd => *self.rng.pick(&LARGE),
            x if x > 90 => self.cursor + self.rng.below(16) as u32,
            _ => self.cursor,
        };
        self.sizes[i] = Some(size);
        let unknown = if self.rng.chance(1, 5) { self.rng.byte() } else { 0 };
        let word = if self.rng.chance(1, 5) { self.rng.u32() } else { 0 };
        Body::Structure(unknown, size, word, members)
    }
}

fn entries(rng: &mut Rng) -> Vec<(u32, u32)> {
    (0..rng.small(12))
        .map(|k| {
            let name = if rng.chance(1, 12) { rng.u32() } else { hash_text(rng.pick(&WORDS).as_bytes()) };
            let value = if rng.chance(1, 6) { rng.u32() } else { k as u32 };
            (name, value)
        })
        .collect()
}

/// Structures 0x5000 and on, enums 0xE000 and on, most of the time.
pub fn definitions(rng: &mut Rng, mood: Mood) -> Vec<(u32, Body)> {
    let names = name_pool(rng, mood.structures, 0x5000, mood.odd);
    let mut enums = name_pool(rng, mood.enums, 0xE000, mood.odd);
    if mood.odd > 0 && rng.chance(1, 6) && !enums.is_empty() {
        let k = rng.below(enums.len());
        enums[k] = names[rng.below(names.len())];
    }
    let sizes = vec![None; names.len()];
    let mut maker = Maker { rng, mood, names: names.clone(), sizes, enums: enums.clone(), drafts: Vec::new(), cursor: 0, next_name: 0 };
    // Backwards: a later structure's size is known where it stands inline.
    let mut bodies: Vec<Body> = (0..names.len()).rev().map(|i| maker.define(i)).collect();
    bodies.reverse();
    let mut out: Vec<(u32, Body)> = names.into_iter().zip(bodies).collect();
    out.extend(enums.into_iter().map(|n| (n, Body::Enum(entries(rng)))));
    out
}

fn other_section(rng: &mut Rng) -> Section {
    let name = *rng.pick(&[0x5354_5246, PSIN, PMAP, 0, 0x4348_4B53, 0x5053_4349]);
    let n = rng.small(40);
    Section::Other(name, rng.bytes(n))
}

/// The definitions in one or more sections, with gaps, shared places and other sections.
pub fn plan(rng: &mut Rng, mut defs: Vec<(u32, Body)>, odd: usize) -> Plan {
    if rng.chance(odd, 100) {
        rng.shuffle(&mut defs);
    }
    let several = rng.chance(odd, 200);
    let mut sections = Vec::new();
    let mut current: Vec<Def> = Vec::new();
    for (name, body) in defs {
        let gap = if rng.chance(odd, 300) { let n = rng.below(9); rng.bytes(n) } else { Vec::new() };
        current.push(Def { name, body, gap });
        if rng.chance(odd, 900) {
            let k = rng.below(current.len());
            let name = if rng.chance(1, 2) { current[k].name } else { 0x5000 + rng.below(8) as u32 };
            current.push(Def { name, body: Body::Same(k), gap: Vec::new() });
        }
        if several && rng.chance(1, 3) {
            sections.push(Section::Psch(std::mem::take(&mut current)));
        }
    }
    sections.push(Section::Psch(current));
    for _ in 0..rng.small(6) {
        if rng.chance(odd, 200) {
            let at = rng.below(sections.len() + 1);
            sections.insert(at, other_section(rng));
        }
    }
    let tail = if rng.chance(odd, 300) { let n = rng.below(8); rng.bytes(n) } else { Vec::new() };
    Plan { sections, tail }
}
