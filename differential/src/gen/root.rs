//! Roots whose type's name is that of other items' blocks: structures of the root's type, texts and runs in blocks of its number.
use super::plan::{member, Body, Plan};
use super::tree::{Tree, NULL_LEAF};
use super::Size;
use crate::model::schema::Member;
use crate::model::sheet::U32;
use crate::model::write::ARRAYINFO;
use crate::rng::Rng;

pub fn own_name(rng: &mut Rng, size: Size) -> (Vec<u8>, Vec<u8>) {
    match rng.below(if size == Size::Full { 40 } else { 36 }) {
        0..=5 => without_bytes(rng),
        36 | 37 => parts_of_a_block(rng),
        38 | 39 => at_the_end(rng),
        _ => led_to(rng),
    }
}

/// A way to something that is filed under the root's name.
#[derive(Clone, Copy, PartialEq)]
enum Way {
    Pointer,
    PointerRun,
    EmbeddedPointers,
    Run,
    Map,
    /// A text, in block 1.
    Text,
    /// A run of elements of this type and subtype, in a block of its own number.
    Raw(u8, u8),
}
use Way::*;

/// What is filed in blocks of this number, beside structures of the name.
fn raw(name: u32) -> Way {
    match name {
        1 => Text,
        2 | 4 | 5 | 6 | 7 => Raw(name as u8, 0),
        12 => Raw(0x0B, 1),
        200 => Raw(0x0B, 3),
        _ => Pointer,
    }
}

/// The root's members but the first, a number, and their ends.
fn members(name: u32, ways: &[Way]) -> (Vec<Member>, u32) {
    let (mut out, mut at) = (vec![member(0x41, 6, 0, 0, 0)], 4);
    for (k, way) in ways.iter().enumerate() {
        let own = 0x42 + k as u32;
        let index = out.len() as u32;
        let info = |ty, subtype| member(ARRAYINFO, ty, subtype, 0, if ty == 0x0C { name } else { 0 });
        let (info, m, need) = match way {
            Pointer => (None, member(own, 0x0C, 3, at, name), 8),
            PointerRun => (Some(info(0x0C, 3)), member(own, 0x0D, 0, at, index), 16),
            EmbeddedPointers => (Some(info(0x0C, 3)), member(own, 0x0D, 1, at, 2 << 16 | index), 16),
            Run => (Some(info(0x0C, 0)), member(own, 0x0D, 0, at, index), 16),
            Map => (Some(info(0x0C, 0)), member(own, 0x10, 1, at, index), 24),
            Text => (None, member(own, 0x0B, 1, at, 0), 8),
            Raw(ty, subtype) => (Some(info(*ty, *subtype)), member(own, 0x0D, 0, at, index), 16),
        };
        out.extend(info);
        out.push(m);
        at += need;
    }
    (out, at as u32)
}

/// A structure of the root's type; deeper ones have fewer values.
fn structure(rng: &mut Rng, name: u32, ways: &[Way], depth: usize) -> Tree {
    let mut fields = vec![(0x41, Tree::leaf(U32, rng.u32()))];
    for (k, way) in ways.iter().enumerate() {
        if depth == 0 || rng.chance(7, 8 * depth) {
            fields.push((0x42 + k as u32, value(rng, name, ways, *way, depth)));
        }
    }
    if rng.chance(1, 8) {
        rng.shuffle(&mut fields);
    }
    Tree::Struct(name, fields)
}

fn value(rng: &mut Rng, name: u32, ways: &[Way], way: Way, depth: usize) -> Tree {
    let inner = |rng: &mut Rng| match rng.below(if depth < 3 { 8 } else { 1 }) {
        0 => NULL_LEAF,
        1 => Tree::Struct(name, Vec::new()),
        _ => structure(rng, name, ways, depth + 1),
    };
    match way {
        Pointer => inner(rng),
        PointerRun | EmbeddedPointers | Run => Tree::Array((0..rng.below(4)).map(|_| inner(rng)).collect()),
        Map => Tree::Map((0..2 * rng.below(3)).map(|k| if k % 2 == 0 { Tree::leaf(U32, k as u32) } else { inner(rng) }).collect()),
        Text => Tree::text(*rng.pick(&[&b"ab"[..], b"a", b"", b"road"])),
        Raw(0x0B, _) => Tree::Array((0..rng.below(4)).map(|_| Tree::text(b"ab")).collect()),
        Raw(..) => Tree::Array((0..rng.below(6)).map(|k| Tree::leaf(U32, k as u32)).collect()),
    }
}

fn led_to(rng: &mut Rng) -> (Vec<u8>, Vec<u8>) {
    let name = *rng.pick(&[0x40, 0x40, 0x40, 0x40, 1, 1, 2, 4, 5, 6, 7, 12, 200]);
    let other = raw(name);
    let ways: Vec<Way> = (0..rng.range(1, 3)).map(|_| *rng.pick(&[Pointer, PointerRun, EmbeddedPointers, Run, Map, other, other])).collect();
    let (members, end) = members(name, &ways);
    let size = match rng.below(8) {
        0 => rng.below(end as usize) as u32,
        1 => end + rng.below(20) as u32,
        _ => end,
    };
    (structure(rng, name, &ways, 0).sheet(), Plan::of(vec![(name, Body::Structure(0, size, 0, members))]).bytes())
}

/// Structures of the root's type, that has no bytes: it starts at 0 in the block that they opened.
fn without_bytes(rng: &mut Rng) -> (Vec<u8>, Vec<u8>) {
    let (n, count) = (rng.below(4), rng.range(1, 3) as u32);
    let items = (0..n).map(|_| if rng.chance(1, 6) { NULL_LEAF } else { Tree::Struct(0x40, Vec::new()) }).collect();
    embedded_pointers(count, items)
}

/// A root without bytes, whose embedded run of so many pointers to its type doesn't fit: what they lead to is laid all the same.
pub fn embedded_pointers(count: u32, items: Vec<Tree>) -> (Vec<u8>, Vec<u8>) {
    let members = vec![member(0x41, 0x0D, 1, 0, count << 16 | 1), member(ARRAYINFO, 0x0C, 3, 0, 0x40)];
    (Tree::Struct(0x40, vec![(0x41, Tree::Array(items))]).sheet(), Plan::of(vec![(0x40, Body::Structure(0, 0, 0, members))]).bytes())
}

/// Structures of the root's type that with it fill a block, or that leave it a byte too few, or have one to spare.
fn parts_of_a_block(rng: &mut Rng) -> (Vec<u8>, Vec<u8>) {
    let parts = rng.range(2, 4) as u32;
    let size = 0x10_0000 / parts + rng.below(3) as u32 - 1;
    let root = vec![member(ARRAYINFO, 0x0C, 3, 0, 0), member(0x41, 0x0D, 0, 0, 0)];
    let items = (1..parts).map(|_| Tree::Struct(0x40, Vec::new())).collect();
    (Tree::Struct(0x40, vec![(0x41, Tree::Array(items))]).sheet(), Plan::of(vec![(0x40, Body::Structure(0, size, 0, root))]).bytes())
}

/// A root without bytes behind a block of its name that is full, or nearly.
fn at_the_end(rng: &mut Rng) -> (Vec<u8>, Vec<u8>) {
    let (n, stride) = *rng.pick(&[(32, 32_768), (32, 32_768), (32, 32_767), (31, 32_768), (16, 65_535)]);
    behind_texts(n, stride)
}

/// A root without bytes, named 1, behind a run of so many texts of so many bytes.
pub fn behind_texts(n: usize, stride: u32) -> (Vec<u8>, Vec<u8>) {
    let root = vec![member(ARRAYINFO, 0x0C, 3, 0, 0), member(0x41, 0x0D, 1, 0, 0x1_0000)];
    let full = vec![member(ARRAYINFO, 0x0B, 0, 0, stride << 16), member(0x42, 0x0D, 0, 0, 0)];
    let plan = Plan::of(vec![(1, Body::Structure(0, 0, 0, root)), (0x50, Body::Structure(0, 16, 0, full))]);
    let inner = Tree::Struct(0x50, vec![(0x42, Tree::Array(vec![NULL_LEAF; n]))]);
    (Tree::Struct(1, vec![(0x41, Tree::Array(vec![inner]))]).sheet(), plan.bytes())
}
