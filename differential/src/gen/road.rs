//! Roads: chains past 32 structures by each way, to the sheet's 64 levels and past them; inline nests behind them.
use super::chain::{End, Last, Link, Shape};
use super::plan::{member, Body};
use super::tree::{Tree, NULL_LEAF};
use super::Size;
use crate::model::schema::Member;
use crate::model::sheet::U32;
use crate::model::write::ARRAYINFO;
use crate::rng::Rng;
use Link::*;

pub fn road(rng: &mut Rng, _size: Size) -> (Vec<u8>, Vec<u8>) {
    let shape = match rng.below(24) {
        0..=7 => by_one_way(rng),
        8..=12 => by_all_ways(rng),
        13..=16 => in_a_circle(rng),
        17..=19 => to_a_nest(rng),
        20 | 21 => at_the_last_depth(rng),
        22 => to_an_endless_nest(rng),
        _ => to_refusals(rng),
    };
    shape.files()
}

/// The levels below the root: most of the sheet's 64, seldom more.
fn levels(rng: &mut Rng) -> usize {
    match rng.below(12) {
        0 => rng.range(20, 40),
        1..=3 => rng.range(38, 58),
        4..=6 => rng.range(58, 62),
        7..=10 => 63,
        _ => rng.range(64, 65),
    }
}

/// Links of so many levels, picked one by one.
fn links(rng: &mut Rng, levels: usize, from: &[Link]) -> Vec<Link> {
    let mut out = Vec::new();
    let mut left = levels;
    while left > 0 {
        let link = *rng.pick(from);
        if link.levels() <= left {
            left -= link.levels();
            out.push(link);
        } else if from.iter().all(|l| l.levels() > left) {
            break;
        }
    }
    out
}

/// A chain whose last structure has no values, most of the time: none has room at the sheet's last level.
fn ended(rng: &mut Rng, mut shape: Shape) -> Shape {
    shape.end = *rng.pick(&[End::Bare, End::Bare, End::Bare, End::Number, End::Null]);
    shape
}

/// One way again and again; what takes two levels comes in turn with what takes one, else no more than 32 fit into a sheet.
fn by_one_way(rng: &mut Rng) -> Shape {
    let n = levels(rng);
    let way = *rng.pick(&[Pointer, Pointer, Map, Map, Run, PointerRun, Embedded]);
    if way.levels() == 1 || rng.chance(1, 8) {
        return ended(rng, Shape::of(vec![way; n / way.levels()]));
    }
    let other = *rng.pick(&[Pointer, Map, Inline]);
    ended(rng, Shape::of([way, other].into_iter().cycle().take(2 * (n / 3)).collect()))
}

fn by_all_ways(rng: &mut Rng) -> Shape {
    let n = levels(rng);
    let shape = Shape::of(links(rng, n, &[Pointer, Pointer, Pointer, Map, Map, Inline, Run, PointerRun, Embedded]));
    ended(rng, shape)
}

/// Up to four definitions that lead to one another in a circle.
fn in_a_circle(rng: &mut Rng) -> Shape {
    let n = levels(rng);
    let mut ways: Vec<Link> = (0..rng.below(4)).map(|_| *rng.pick(&[Inline, Pointer, Run, PointerRun, Embedded, Map])).collect();
    // One of them doesn't stand in another's bytes.
    ways.push(*rng.pick(&[Pointer, Pointer, Map, Run, PointerRun]));
    let (mut given, mut left) = (0, n);
    while ways[given % ways.len()].levels() <= left {
        left -= ways[given % ways.len()].levels();
        given += 1;
    }
    ended(rng, Shape::circle(ways, given))
}

/// Inline structures without values behind a chain: 32 with the chain's last one are built, 33 are not.
fn to_a_nest(rng: &mut Rng) -> Shape {
    let n = if rng.chance(1, 2) { rng.range(1, 40) } else { rng.range(40, 63) };
    let ways: &[Link] = if rng.chance(1, 2) { &[Pointer, Map] } else { &[Pointer, Map, Run, PointerRun, Embedded] };
    let front = links(rng, n, ways);
    let given = front.len();
    let nest = vec![Inline; *rng.pick(&[29, 30, 31, 31, 31, 31, 32, 33])];
    let mut shape = Shape { given, ..Shape::of([front, nest].concat()) };
    shape.end = End::Bare;
    if matches!(shape.links[given - 1], Run | Embedded | Map) && rng.chance(1, 2) {
        shape.end = End::Null;
    }
    shape
}

/// In the 30th to 33rd of structures inline in one another, a way to such a nest.
fn at_the_last_depth(rng: &mut Rng) -> Shape {
    let front = vec![Pointer; rng.below(4)];
    let outer = vec![Inline; *rng.pick(&[29, 30, 31, 31, 31, 32])];
    let way = vec![*rng.pick(&[Pointer, Run, PointerRun, Embedded, Map, Inline])];
    let given = front.len() + outer.len() + 1;
    let inner = vec![Inline; *rng.pick(&[29, 30, 31, 31, 31, 32])];
    let mut shape = Shape { given, ..Shape::of([front, outer, way, inner].concat()) };
    shape.end = *rng.pick(&[End::Bare, End::Number, End::Null]);
    shape
}

/// The last structure is inline in itself, without end or until a value is no structure.
fn to_an_endless_nest(rng: &mut Rng) -> Shape {
    let n = rng.below(30);
    let mut shape = Shape::of(links(rng, n, &[Pointer, Map, Run, PointerRun, Embedded, Inline]));
    let own = 0x5000 + shape.links.len() as u32;
    shape.last.members = vec![member(0x42, 0x0C, 0, 0, own)];
    if rng.chance(1, 2) {
        let structures = rng.range(28, 33);
        let value = (0..structures).fold(Tree::leaf(U32, 7), |value, _| Tree::Struct(own, vec![(0x42, value)]));
        shape.last.fields = vec![(0x42, value)];
    }
    shape
}

/// Behind a chain, members of which each is refused, or nearly: the first that is met counts.
fn to_refusals(rng: &mut Rng) -> Shape {
    let n = rng.below(50);
    let mut shape = Shape::of(links(rng, n, &[Pointer, Map, Run, Embedded]));
    let mut parts = vec![too_deep(rng), too_dear(rng), too_far(), float_text()];
    rng.shuffle(&mut parts);
    parts.truncate(rng.range(2, 4));
    let mut last = Last { size: 0, members: Vec::new(), fields: Vec::new(), definitions: Vec::new() };
    for part in parts {
        let index = last.members.len() as u32;
        for mut m in part.members {
            m.offset = last.size as u16;
            if m.ty == 0x0D {
                m.reference += index;
            }
            last.size += if m.name == ARRAYINFO { 0 } else { 16 };
            last.members.push(m);
        }
        last.fields.extend(part.fields);
        last.definitions.extend(part.definitions);
    }
    shape.last = last;
    shape
}

/// 8, or not quite: structures of no bytes inline in one another.
fn too_deep(rng: &mut Rng) -> Last {
    let n = *rng.pick(&[30, 31, 32, 32, 33]);
    let nest = |k: u32| if k + 1 < n { vec![member(0x41, 0x0C, 0, 0, 0x6001 + k)] } else { Vec::new() };
    let definitions = (0..n).map(|k| (0x6000 + k, Body::Structure(0, 0, 0, nest(k)))).collect();
    Last { size: 0, members: vec![member(0x51, 0x0C, 0, 0, 0x6000)], fields: Vec::new(), definitions }
}

/// 9, or not quite.
fn too_dear(rng: &mut Rng) -> Last {
    let size = *rng.pick(&[4_194_304, 4_194_304, 4_190_000, 100_000]);
    Last {
        size: 0,
        members: vec![member(0x52, 0x0C, 3, 0, 0x7000)],
        fields: vec![(0x52, Tree::Struct(0x7000, Vec::new()))],
        definitions: vec![(0x7000, Body::Structure(0, size, 0, Vec::new()))],
    }
}

/// 10: block 1 is full, and a structure of no bytes goes to its end.
fn too_far() -> Last {
    let full: Vec<Member> = vec![member(ARRAYINFO, 0x0B, 0, 0, 0x8000_0000), member(0x53, 0x0D, 0, 0, 0), member(0x54, 0x0C, 3, 0, 1)];
    let fields = vec![(0x53, Tree::Array(vec![NULL_LEAF; 32])), (0x54, Tree::Struct(1, Vec::new()))];
    Last { size: 0, members: full, fields, definitions: vec![(1, Body::Structure(0, 0, 0, Vec::new()))] }
}

/// 11.
fn float_text() -> Last {
    Last { size: 0, members: vec![member(0x55, 7, 0, 0, 0)], fields: vec![(0x55, Tree::text(b"1e5"))], definitions: Vec::new() }
}
