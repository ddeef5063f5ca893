//! Chains that are recorded whatever the seed: past 32 structures by each way, nests inline to depth 32 and 33.
use crate::fixed::{fixed as road, Fixed as Road};
use crate::gen::chain::{End, Link, Shape};
use crate::gen::plan::{member, Body, Plan};
use crate::gen::tree::{Tree, NULL_LEAF};
use crate::model::schema::Member;
use crate::model::sheet::U32;
use crate::model::write::ARRAYINFO;
use crate::model::GENEROUS;
use Link::*;

/// The same with a byte less of work.
fn shorter(what: &str, road: &Road) -> Road {
    let mut case = road.case.clone();
    case.limits.work -= 1;
    let generous = case.within(&GENEROUS);
    Road { what: what.to_string(), case, generous }
}

/// So many structures, whose definitions lead in a circle; the last one has no values.
fn circle(links: &[Link], structures: usize) -> (Vec<u8>, Vec<u8>) {
    let mut shape = Shape::circle(links.to_vec(), structures - 1);
    shape.end = End::Bare;
    shape.files()
}

/// So many structures of one size, each inline in the one before; a definition each, from a name on.
fn inline(first: u32, structures: u32, size: u32) -> Vec<(u32, Body)> {
    let next = |k: u32| if k + 1 < structures { vec![member(0x41, 0x0C, 0, 0, first + k + 1)] } else { Vec::new() };
    (0..structures).map(|k| (first + k, Body::Structure(0, size, 0, next(k)))).collect()
}

/// A sheet without values: what is written stands in the definitions.
fn nest(structures: u32) -> (Vec<u8>, Vec<u8>) {
    (Tree::Struct(0x400, Vec::new()).sheet(), Plan::of(inline(0x400, structures, 0)).bytes())
}

/// A structure of 8 bytes, with these members and values; other definitions stand behind its own.
fn one(members: Vec<Member>, fields: Vec<(u32, Tree)>, behind: Vec<(u32, Body)>) -> (Vec<u8>, Vec<u8>) {
    let defs = [vec![(0x40, Body::Structure(0, 8, 0, members))], behind].concat();
    (Tree::Struct(0x40, fields).sheet(), Plan::of(defs).bytes())
}

/// So many structures by pointer, then so many inline in one another: the first of them is the last by pointer.
fn pointers_to_nest(pointers: usize, structures: u32) -> (Vec<u8>, Vec<u8>) {
    let last = Tree::Struct(0x400, Vec::new());
    let tree = (1..pointers).fold(last, |tree, _| Tree::Struct(0x40, vec![(0x41, tree)]));
    one(vec![member(0x41, 0x0C, 3, 0, 0x40)], vec![(0x41, tree)], inline(0x400, structures, 0))
}

/// 32 structures inline in one another, and in the innermost a way to as many again.
fn way_at_32(way: Link) -> (Vec<u8>, Vec<u8>) {
    const OUTER: u32 = 0x400;
    let info = |subtype| member(ARRAYINFO, 0x0C, subtype, 0, OUTER);
    let struct_row = || Tree::Struct(OUTER, Vec::new());
    let (members, value) = match way {
        Inline | Pointer => (vec![member(0x41, 0x0C, 3, 0, OUTER)], struct_row()),
        Run => (vec![info(0), member(0x41, 0x0D, 0, 0, 0)], Tree::Array(vec![NULL_LEAF])),
        PointerRun => (vec![info(3), member(0x41, 0x0D, 0, 0, 0)], Tree::Array(vec![struct_row()])),
        Embedded => (vec![info(0), member(0x41, 0x0D, 1, 0, 0x1_0000)], Tree::Array(vec![NULL_LEAF])),
        Map => (vec![info(0), member(0x41, 0x10, 1, 0, 0)], Tree::Map(vec![NULL_LEAF; 2])),
    };
    let size = if way == Map { 24 } else { 16 };
    let mut defs = inline(OUTER, 32, size);
    defs[31].1 = Body::Structure(0, size, 0, members);
    let tree = (0..32).rev().fold(value, |tree, k| Tree::Struct(OUTER + k, vec![(0x41, tree)]));
    (tree.sheet(), Plan::of(defs).bytes())
}

/// So many structures of one definition, each inline in the one before; the last one's value is no structure.
fn ended_by_value(structures: u32) -> (Vec<u8>, Vec<u8>) {
    let tree = (0..structures).fold(Tree::leaf(U32, 7), |tree, _| Tree::Struct(0x40, vec![(0x41, tree)]));
    (tree.sheet(), Plan::of(vec![(0x40, Body::Structure(0, 0, 0, vec![member(0x41, 0x0C, 0, 0, 0x40)]))]).bytes())
}

/// Two members that are refused: a structure inline in itself, 8, and a float's text, 11.
fn two(first: usize) -> (Vec<u8>, Vec<u8>) {
    let mut members = vec![member(0x41, 0x0C, 0, 0, 0x50), member(0x42, 7, 0, 4, 0)];
    members.rotate_left(first);
    let own = Body::Structure(0, 0, 0, vec![member(0x43, 0x0C, 0, 0, 0x50)]);
    one(members, vec![(0x42, Tree::text(b"1e5"))], vec![(0x50, own)])
}

/// Chains on which demand 3 is recorded too.
pub fn built() -> Vec<Road> {
    vec![
        road("a hall's road: 40 segments, each pointed to by the last", circle(&[Pointer], 40)),
        road("34 structures, each a map's pair", circle(&[Map], 34)),
        road("in the 32nd structure inline a run, its element the outermost of 32 inline", way_at_32(Run)),
        road("in the 32nd structure inline an embedded run", way_at_32(Embedded)),
        road("32 structures inline", nest(32)),
    ]
}

/// Other chains, built or refused.
pub fn others() -> Vec<Road> {
    let nest_of_33 = road("33 structures inline, with the charge of 32: 8", nest(33));
    vec![
        shorter("33 structures inline, with a charge below that: 9", &nest_of_33),
        nest_of_33,
        road("in the 32nd structure inline a pointer", way_at_32(Pointer)),
        road("in the 32nd structure inline a run of pointers", way_at_32(PointerRun)),
        road("in the 32nd structure inline a map", way_at_32(Map)),
        road("33 structures by pointer", circle(&[Pointer], 33)),
        road("64 structures by pointer, all that the sheet's levels hold", circle(&[Pointer], 64)),
        road("65 structures by pointer: 1", circle(&[Pointer], 65)),
        road("36 structures by every way", circle(&[Inline, Run, Embedded, PointerRun, Map, Pointer], 36)),
        road("a pointer to 33 structures inline: 8", pointers_to_nest(1, 33)),
        road("a structure inline in itself, before a float's text: 8", two(0)),
        road("a float's text, before a structure inline in itself: 11", two(1)),
        road("95 structures in one another, the most that can be", pointers_to_nest(63, 32)),
        road("32 structures of one definition inline, ended by a value that is no structure", ended_by_value(32)),
        road("33 of them: 8", ended_by_value(33)),
    ]
}
