//! Values that fit the members of a schema, or don't, by a given share.
use super::decimal;
use super::text;
use super::tree::{Tree, NULL_LEAF};
use crate::model::schema::{Member, Schema, Structure};
use crate::model::sheet::*;
use crate::model::write::ARRAYINFO;
use crate::rng::Rng;

/// Of a hundred: wrong values, missing members, texts of numbers that are refused with 11, texts instead of numbers.
#[derive(Clone, Copy)]
pub struct Habit {
    pub wrong: usize,
    pub missing: usize,
    pub floats: usize,
    pub texts: usize,
    /// The most elements of an array.
    pub items: usize,
}

pub struct Values<'a> {
    pub rng: &'a mut Rng,
    pub schema: &'a Schema,
    pub habit: Habit,
    /// Rows left.
    pub budget: usize,
}

const INTERESTING: [u64; 14] = [
    0, 1, 7, 127, 128, 255, 256, 65_535, 0x7FFF_FFFF, 0x8000_0000, 0xFFFF_FFFF, 0x7FFF_FFFF_FFFF_FFFF, 0x8000_0000_0000_0000, u64::MAX,
];
const FLOAT_BITS: [u32; 14] = [
    0, 0x8000_0000, 0x3F80_0000, 0xBFC0_0000, 0x3F7F_FFFF, 0x7F80_0000, 0xFF80_0000, 0x7FC0_0000, 0x7F80_0001, 0x5F00_0000,
    0x5EFF_FFFF, 0xDF00_0000, 0xDF00_0001, 1,
];

fn word(rng: &mut Rng) -> u64 {
    match rng.below(4) {
        0 => *rng.pick(&INTERESTING),
        1 => rng.next() >> rng.below(64),
        2 => (1u64 << rng.below(64)).wrapping_add(rng.below(5) as u64).wrapping_sub(2),
        _ => rng.below(300) as u64,
    }
}

fn float_bits(rng: &mut Rng) -> u32 {
    match rng.below(3) {
        0 => *rng.pick(&FLOAT_BITS),
        1 => (rng.below(2_000_001) as f32 - 1_000_000.0).to_bits(),
        _ => rng.u32(),
    }
}

/// A number of one of the kinds of numbers.
pub fn number(rng: &mut Rng) -> Tree {
    let x = word(rng);
    let long = |kind| Tree::Leaf(kind, [(x >> 32) as u32, x as u32, 0, 0]);
    match rng.below(12) {
        0 => Tree::leaf(BOOL, x as u32 & 1),
        1 => Tree::leaf(I8, x as i8 as i32 as u32),
        2 => Tree::leaf(U8, x as u8 as u32),
        3 => Tree::leaf(I16, x as i16 as i32 as u32),
        4 => Tree::leaf(U16, x as u16 as u32),
        5 => Tree::leaf(I32, x as u32),
        6 => Tree::leaf(U32, x as u32),
        7 => long(I64),
        8 => long(U64),
        9 => Tree::leaf(HASH, x as u32),
        10 => Tree::leaf(ENUM, x as u32),
        _ => Tree::leaf(FLAGS, x as u32),
    }
}

fn float(rng: &mut Rng) -> Tree {
    Tree::leaf(F32, float_bits(rng))
}

fn vector(rng: &mut Rng, n: usize) -> Tree {
    let mut f = [0; 4];
    f[..n].iter_mut().for_each(|x| *x = float_bits(rng));
    Tree::Leaf(VEC2 + n as u8 - 2, f)
}

impl Values<'_> {
    fn chance(&mut self, of_hundred: usize) -> bool {
        self.rng.chance(of_hundred, 100)
    }

    fn take(&mut self, n: usize) -> bool {
        let enough = self.budget >= n;
        self.budget = self.budget.saturating_sub(n);
        enough
    }

    /// A value of any kind.
    pub fn any(&mut self, levels: usize) -> Tree {
        let floats = self.habit.floats;
        match self.rng.below(13) {
            0..=2 => number(self.rng),
            3 => float(self.rng),
            4 => { let n = self.rng.range(2, 4); vector(self.rng, n) }
            5 | 6 => Tree::Text(text::text(self.rng, floats)),
            7 => Tree::leaf(BYTES, 0),
            8 => NULL_LEAF,
            9 | 10 if levels > 0 => {
                let n = self.rng.small(6);
                Tree::Array((0..n).filter(|_| self.take(1)).collect::<Vec<_>>().iter().map(|_| self.any(levels - 1)).collect())
            }
            11 if levels > 0 => {
                let n = 2 * self.rng.small(3);
                if self.take(n) { Tree::Map((0..n).map(|_| self.any(levels - 1)).collect()) } else { Tree::Map(Vec::new()) }
            }
            _ if levels > 0 => {
                let n = self.rng.small(4);
                let ty = 0x5000 + self.rng.below(6) as u32;
                if !self.take(n) {
                    return Tree::Struct(ty, Vec::new());
                }
                Tree::Struct(ty, (0..n).map(|_| (0x41 + self.rng.below(6) as u32, self.any(levels - 1))).collect())
            }
            _ => NULL_LEAF,
        }
    }

    fn int(&mut self) -> Tree {
        let (texts, floats) = (self.habit.texts, self.habit.floats);
        if self.chance(texts) {
            return Tree::Text(text::number(self.rng, floats));
        }
        if self.rng.chance(1, 6) { float(self.rng) } else { number(self.rng) }
    }

    fn real(&mut self) -> Tree {
        let Habit { texts, floats, wrong, .. } = self.habit;
        if self.chance(texts) {
            return Tree::Text(decimal::real(self.rng, floats, wrong / 2));
        }
        if self.rng.chance(1, 2) { float(self.rng) } else { number(self.rng) }
    }

    fn vec(&mut self, n: usize) -> Tree {
        let Habit { texts, floats, wrong, .. } = self.habit;
        if self.chance(texts / 2) {
            return Tree::Text(decimal::list(self.rng, n, floats, wrong));
        }
        if self.rng.chance(1, 3) {
            let count = if self.rng.chance(1, 4) { self.rng.below(7) } else { n };
            if self.take(count) {
                let short = self.habit.wrong;
                return Tree::Array((0..count).map(|_| if self.chance(short) { self.any(0) } else { self.real() }).collect());
            }
        }
        let kind = if self.rng.chance(3, 4) { n } else { self.rng.range(2, 4) };
        vector(self.rng, kind)
    }

    fn string(&mut self) -> Tree {
        match self.rng.below(12) {
            0 => NULL_LEAF,
            1 => Tree::leaf(HASH, 0),
            2 => Tree::text(b""),
            3 => { let n = self.rng.range(20, 120); Tree::Text((0..n).map(|_| self.rng.range(32, 126) as u8).collect()) }
            _ => Tree::Text(text::text(self.rng, 20)),
        }
    }

    fn hash(&mut self) -> Tree {
        match self.rng.below(8) {
            0..=3 => Tree::Text(text::hash(self.rng)),
            4 => NULL_LEAF,
            _ => {
                let x = word(self.rng);
                match *self.rng.pick(&[HASH, HASH, U32, I32, I64, U64, ENUM]) {
                    kind @ (I64 | U64) => Tree::Leaf(kind, [(x >> 32) as u32, x as u32, 0, 0]),
                    kind => Tree::leaf(kind, x as u32),
                }
            }
        }
    }

    fn enumeration(&mut self) -> Tree {
        match self.rng.below(6) {
            0 | 1 => Tree::text(self.rng.pick(&text::WORDS).as_bytes()),
            2 => Tree::leaf(HASH, crate::model::text::hash_text(self.rng.pick(&text::WORDS).as_bytes())),
            3 => Tree::leaf(ENUM, word(self.rng) as u32),
            _ => self.int(),
        }
    }

    fn flags(&mut self, levels: usize) -> Tree {
        match self.rng.below(6) {
            0 | 1 => Tree::Text(text::names(self.rng)),
            2 => Tree::leaf(FLAGS, self.rng.u32()),
            3 if levels > 0 => {
                let n = self.rng.small(5);
                if self.take(n) { Tree::Array((0..n).map(|_| self.flags(levels - 1)).collect()) } else { NULL_LEAF }
            }
            _ => self.int(),
        }
    }

    /// A Struct for a definition: its own type, another's, or none's.
    pub fn structure(&mut self, name: u32, levels: usize, by_pointer: bool) -> Tree {
        let mut ty = name;
        if self.rng.chance(if by_pointer { 3 } else { 1 }, 6) {
            let all = &self.schema.all.structures;
            ty = match self.rng.below(4) {
                0 => self.rng.u32(),
                1 => 0x5FFF,
                _ if !all.is_empty() => all[self.rng.below(all.len())].name,
                _ => ty,
            };
        }
        let name = if by_pointer && self.schema.structure(ty).is_some() { ty } else { name };
        let fields = match self.schema.structure(name) {
            Some(def) if levels > 0 => self.fields(def, levels),
            _ => Vec::new(),
        };
        Tree::Struct(ty, fields)
    }

    pub fn fields(&mut self, def: &Structure, levels: usize) -> Vec<(u32, Tree)> {
        let (missing, wrong) = (self.habit.missing, self.habit.wrong);
        let mut out: Vec<(u32, Tree)> = Vec::new();
        for m in def.members.iter() {
            let unwanted = m.name == ARRAYINFO || out.iter().any(|(n, _)| *n == m.name);
            if (unwanted && !self.rng.chance(1, 20)) || self.chance(missing) || !self.take(1) {
                continue;
            }
            let value = self.value(def, m, levels - 1);
            out.push((m.name, value));
        }
        if self.chance(wrong) && self.take(1) {
            let at = self.rng.below(out.len() + 1);
            let name = if self.rng.chance(1, 2) { 0 } else { 0x41 + self.rng.below(8) as u32 };
            let value = self.any(levels.min(2));
            out.insert(at, (name, value));
        }
        if self.rng.chance(1, 6) {
            self.rng.shuffle(&mut out);
        }
        out
    }

    /// A value for a member.
    pub fn value(&mut self, def: &Structure, m: &Member, levels: usize) -> Tree {
        if self.chance(self.habit.wrong) {
            return self.any(levels.min(2));
        }
        match m.ty {
            0..=6 | 0x1E | 0x20 => self.int(),
            7 => self.real(),
            8 => self.vec(2),
            9 | 0x14 => self.vec(3),
            0x0A | 0x15 => self.vec(4),
            0x0B if m.subtype >= 7 => self.hash(),
            0x0B => self.string(),
            0x0C => self.structure_value(m.reference, levels, m.subtype != 0),
            0x0D => self.array(def, m, levels),
            0x0E => self.enumeration(),
            0x0F => self.flags(levels.min(3)),
            0x10 => self.map(def, m, levels),
            _ => self.any(levels.min(2)),
        }
    }

    fn structure_value(&mut self, name: u32, levels: usize, by_pointer: bool) -> Tree {
        match self.rng.below(16) {
            0 => NULL_LEAF,
            1 => Tree::text(b""),
            _ => self.structure(name, levels, by_pointer),
        }
    }

    fn count(&mut self) -> usize {
        let most = self.habit.items;
        self.rng.small(most)
    }

    fn array(&mut self, def: &Structure, m: &Member, levels: usize) -> Tree {
        match self.rng.below(20) {
            0 => return NULL_LEAF,
            1 => return Tree::text(self.rng.pick(&["", " ", "\t\n"]).as_bytes()),
            _ => {}
        }
        let mut index = (m.reference & 0xFFFF) as usize;
        if index >= def.members.len() {
            index = (m.reference & 0xFFF) as usize;
        }
        let element = def.members.get(index).copied();
        let n = self.count();
        let mut items = Vec::new();
        for _ in 0..n {
            if levels == 0 || !self.take(1) {
                break;
            }
            items.push(self.item(element.as_ref(), levels - 1));
        }
        Tree::Array(items)
    }

    fn item(&mut self, element: Option<&Member>, levels: usize) -> Tree {
        let Some(e) = element else { return self.any(1) };
        if self.chance(self.habit.wrong / 3) {
            return self.any(levels.min(1));
        }
        match e.ty {
            0x0C if e.subtype == 3 => if self.rng.chance(1, 8) { NULL_LEAF } else { self.structure(e.reference, levels, true) },
            0x0C => if self.rng.chance(1, 8) { NULL_LEAF } else { self.structure(e.reference, levels, false) },
            0x0D | 0x0F | 0x10 => self.any(1),
            _ => {
                let dummy = Structure { name: 0, unknown: 0, size: 0, members: [].into() };
                self.value(&dummy, e, levels)
            }
        }
    }

    fn map(&mut self, def: &Structure, m: &Member, levels: usize) -> Tree {
        if self.rng.chance(1, 16) {
            return NULL_LEAF;
        }
        let name = def.members.get((m.reference & 0xFFFF) as usize).map_or(0, |d| d.reference);
        let pair = self.schema.structure(name);
        let members: Vec<Member> = pair.map_or(Vec::new(), |p| p.members.iter().filter(|x| x.name != ARRAYINFO).take(2).copied().collect());
        let n = self.count();
        let mut rows = Vec::new();
        for _ in 0..n {
            if levels == 0 || !self.take(2) {
                break;
            }
            for k in 0..2 {
                let v = match (members.get(k), pair) {
                    (Some(x), Some(p)) => self.value(p, x, levels - 1),
                    _ => self.any(1),
                };
                rows.push(v);
            }
        }
        Tree::Map(rows)
    }
}
