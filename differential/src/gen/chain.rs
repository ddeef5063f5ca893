//! Structures one in another, most often fewer than 36 (`road` has longer chains), and sheets of 60 to 66 levels.
use super::plan::{member, Body, Plan};
use super::tree::{Tree, NULL_LEAF};
use super::Size;
use crate::model::schema::Member;
use crate::model::sheet::{FLAGS, U32};
use crate::model::write::ARRAYINFO;
use crate::rng::Rng;

/// How a structure leads to the next one.
#[derive(Clone, Copy, Debug, PartialEq)]
pub enum Link {
    Inline,
    Pointer,
    Run,
    PointerRun,
    Embedded,
    Map,
}
use Link::*;

impl Link {
    /// The levels of the sheet that its value takes.
    pub fn levels(self) -> usize {
        if matches!(self, Run | PointerRun | Embedded) { 2 } else { 1 }
    }
}

/// What stands where the values of a chain end.
#[derive(Clone, Copy, PartialEq)]
pub enum End {
    /// A structure with a number.
    Number,
    /// A structure without values.
    Bare,
    /// A Null in its place.
    Null,
}

/// What the last structure has, and definitions that only it leads to.
pub struct Last {
    pub size: u32,
    pub members: Vec<Member>,
    pub fields: Vec<(u32, Tree)>,
    pub definitions: Vec<(u32, Body)>,
}

/// A chain of structures, each led to by the one before.
pub struct Shape {
    pub links: Vec<Link>,
    /// So many links have values; the links begin again where there are fewer.
    pub given: usize,
    pub end: End,
    /// So many definitions: one for each structure, or they begin again too.
    pub period: usize,
    pub last: Last,
}

const FIRST: u32 = 0x5000;

fn number() -> Member {
    member(0x41, 6, 0, 0, 0)
}

/// The members of structure i, and its size, given the next one's.
fn members(link: Link, next: u32, next_size: u32) -> (Vec<Member>, u32) {
    let (more, size) = match link {
        Inline => (vec![member(0x42, 0x0C, 0, 4, next)], next_size.saturating_add(4)),
        Pointer => (vec![member(0x42, 0x0C, 3, 4, next)], 12),
        Run => (vec![member(ARRAYINFO, 0x0C, 0, 0, next), member(0x42, 0x0D, 0, 4, 1)], 20),
        PointerRun => (vec![member(ARRAYINFO, 0x0C, 3, 0, next), member(0x42, 0x0D, 0, 4, 1)], 20),
        Embedded => (vec![member(ARRAYINFO, 0x0C, 0, 0, next), member(0x42, 0x0D, 1, 4, 0x1_0001)], next_size.saturating_add(4)),
        Map => (vec![member(ARRAYINFO, 0x0C, 0, 0, next), member(0x42, 0x10, 1, 4, 1)], 28),
    };
    ([vec![number()], more].concat(), size)
}

impl Shape {
    /// A structure more than links, each with a definition of its own and with values.
    pub fn of(links: Vec<Link>) -> Shape {
        let last = Last { size: 4, members: vec![number()], fields: Vec::new(), definitions: Vec::new() };
        Shape { given: links.len(), end: End::Number, period: links.len() + 1, last, links }
    }

    /// Structures whose definitions lead in a circle; so many links have values.
    pub fn circle(links: Vec<Link>, given: usize) -> Shape {
        Shape { given, period: links.len(), ..Shape::of(links) }
    }

    fn name(&self, i: usize) -> u32 {
        FIRST + (i % self.period) as u32
    }

    pub fn plan(&self) -> Plan {
        let n = self.period;
        let mut sizes = vec![0; n];
        let mut defs = Vec::new();
        // In a circle a size may be needed before it is known.
        for i in (0..n).rev().chain((0..n).rev()) {
            let (m, size) = match self.links.get(i) {
                Some(link) => members(*link, self.name(i + 1), sizes[(i + 1) % n]),
                None => (self.last.members.clone(), self.last.size),
            };
            sizes[i] = size;
            defs.push((self.name(i), Body::Structure(0, size, 0, m)));
        }
        let mut defs = defs.split_off(n);
        defs.reverse();
        defs.extend(self.last.definitions.iter().cloned());
        Plan::of(defs)
    }

    pub fn tree(&self) -> Tree {
        self.structure(0)
    }

    fn structure(&self, i: usize) -> Tree {
        let mut fields = Vec::new();
        if i < self.given || self.end != End::Bare {
            fields.push((0x41, Tree::leaf(U32, i as u32 + 1)));
        }
        if i < self.given {
            fields.push((0x42, self.value(i)));
        } else {
            fields.extend(self.last.fields.iter().cloned());
        }
        Tree::Struct(self.name(i), fields)
    }

    /// The value of structure i's link.
    fn value(&self, i: usize) -> Tree {
        let ends = i + 1 == self.given;
        let next = || if ends && self.end == End::Null { NULL_LEAF } else { self.structure(i + 1) };
        match self.links[i % self.links.len()] {
            Inline | Pointer => next(),
            Run if ends && self.end == End::Number => Tree::Array(vec![next(), next()]),
            Run | PointerRun | Embedded => Tree::Array(vec![next()]),
            Map => Tree::Map(vec![Tree::leaf(U32, i as u32), if ends { NULL_LEAF } else { self.value(i + 1) }]),
        }
    }

    pub fn files(&self) -> (Vec<u8>, Vec<u8>) {
        (self.tree().sheet(), self.plan().bytes())
    }
}

/// A structure that leads to itself.
fn endless(rng: &mut Rng) -> (Tree, Plan) {
    let link = *rng.pick(&[Inline, Inline, Pointer, Run, PointerRun, Embedded, Map]);
    let (mut m, mut size) = members(link, 0x5000, 0);
    if matches!(link, Inline | Embedded) {
        // It fits in itself only without the number in front.
        m.remove(0);
        size = rng.below(3) as u32;
        m.iter_mut().for_each(|x| x.offset = 0);
        if link == Embedded {
            m[1].reference = 0x1_0000;
        }
    }
    let depth = rng.range(1, 40);
    let mut v = NULL_LEAF;
    for _ in 0..depth {
        v = match link {
            Inline | Pointer => Tree::Struct(0x5000, vec![(0x42, v)]),
            Run | PointerRun | Embedded => Tree::Struct(0x5000, vec![(0x42, Tree::Array(vec![v]))]),
            Map => Tree::Struct(0x5000, vec![(0x42, Tree::Map(vec![NULL_LEAF, v]))]),
        };
    }
    if !matches!(v, Tree::Struct(..)) {
        v = Tree::Struct(0x5000, Vec::new());
    }
    (v, Plan::of(vec![(0x5000, Body::Structure(0, size, 0, m))]))
}

pub fn chain(rng: &mut Rng, size: Size) -> (Vec<u8>, Vec<u8>) {
    if rng.chance(1, 4) {
        let (tree, plan) = endless(rng);
        return (tree.sheet(), plan.bytes());
    }
    let n = match size {
        Size::Tiny => rng.range(1, 6),
        _ if rng.chance(1, 2) => rng.range(29, 34),
        _ => rng.range(2, 34),
    };
    let kinds: &[Link] = match rng.below(4) {
        0 => &[Inline],
        1 => &[Inline, Pointer],
        2 => &[Inline, Pointer, Map],
        _ => &[Inline, Inline, Pointer, Run, PointerRun, Embedded, Map],
    };
    let mut links: Vec<Link> = (0..n).map(|_| *rng.pick(kinds)).collect();
    // The last structure may be too large for the charge: 9 against 8.
    let mut last_size = rng.chance(1, 10).then(|| *rng.pick(&super::edges::LARGE));
    if size != Size::Tiny && rng.chance(1, 20) {
        links = [vec![Inline; 31], vec![Run]].concat();
        last_size = Some(*rng.pick(&super::edges::LARGE));
    }
    let mut shape = Shape::of(links);
    shape.last.size = last_size.unwrap_or(4);
    shape.files()
}

/// Arrays in arrays: in a flags member, or where nobody looks.
pub fn levels(rng: &mut Rng, _size: Size) -> (Vec<u8>, Vec<u8>) {
    let m = vec![member(ARRAYINFO, 0x0E, 0, 0, 0xE000), member(0x41, 0x0F, 0, 0, 0)];
    let plan = Plan::of(vec![(0x40, Body::Structure(0, 4, 0, m))]);
    let mut v = match rng.below(3) {
        0 => Tree::Array(Vec::new()),
        1 => Tree::text(b"7"),
        _ => Tree::leaf(FLAGS, 5),
    };
    for _ in 0..rng.range(58, 65) {
        v = match rng.below(8) {
            0 => Tree::Array(vec![Tree::leaf(FLAGS, 8), v]),
            _ => Tree::Array(vec![v]),
        };
    }
    let name = if rng.chance(3, 4) { 0x41 } else { 0x42 };
    (Tree::Struct(0x40, vec![(name, v)]).sheet(), plan.bytes())
}
