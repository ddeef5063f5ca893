//! Cases in both ways that are recorded whatever the seed: the worked examples of request 2.10, each with what it gives.
use crate::fixed::{fixed_way, Fixed};
use crate::gen::plan::{member, Body, Def, Plan, Section};
use crate::gen::root::{behind_texts, embedded_pointers};
use crate::gen::tree::Tree;
use crate::model::schema::Member;
use crate::model::sheet::U32;
use crate::model::state::Block;
use crate::model::write::ARRAYINFO;

/// The blocks, by name and length, and the root's pointer.
type Gives = (&'static [(u32, u64)], u32);

fn gives(f: &Fixed, (blocks, pointer): Gives) {
    let pack = f.generous.answer.as_ref().unwrap_or_else(|n| panic!("{}: refused with {n}", f.what));
    let blocks: Vec<Block> = blocks.iter().map(|(name, length)| Block { name: *name, length: *length }).collect();
    assert_eq!((&pack.blocks, pack.items.last().map(|i| i.pointer)), (&blocks, Some(pointer)), "{}", f.what);
}

/// The ordinary way, then the root alone.
fn both(what: &str, files: (Vec<u8>, Vec<u8>), ordinary: Gives, alone: Gives) -> [Fixed; 2] {
    [(false, "", ordinary), (true, ", root alone", alone)].map(|(way, more, wanted)| {
        let f = fixed_way(way, &format!("{what}{more}"), files.clone());
        gives(&f, wanted);
        f
    })
}

fn files(root: u32, size: u32, members: Vec<Member>, fields: Vec<(u32, Tree)>) -> (Vec<u8>, Vec<u8>) {
    (Tree::Struct(root, fields).sheet(), Plan::of(vec![(root, Body::Structure(0, size, 0, members))]).bytes())
}

/// So many structures of one definition, each pointed to by the one before.
fn chain(structures: usize) -> (Vec<u8>, Vec<u8>) {
    let fields = (1..structures).fold(Vec::new(), |fields, _| vec![(0x41, Tree::Struct(0x40, fields))]);
    files(0x40, 8, vec![member(0x41, 0x0C, 3, 0, 0x40)], fields)
}

/// Numbers in block 6, and a root of that name.
fn beside_numbers() -> (Vec<u8>, Vec<u8>) {
    let members = vec![member(ARRAYINFO, 6, 0, 0, 0), member(0x41, 0x0D, 0, 0, 0)];
    files(6, 16, members, vec![(0x41, Tree::Array(vec![Tree::leaf(U32, 7), Tree::leaf(U32, 8)]))])
}

/// The block of the root's name is not the last one.
fn before_another() -> (Vec<u8>, Vec<u8>) {
    let members = vec![member(0x41, 0x0C, 3, 0, 0x40), member(0x42, 0x0C, 3, 8, 0x50)];
    let defs = vec![(0x40, Body::Structure(0, 16, 0, members)), (0x50, Body::Structure(0, 4, 0, vec![member(0x43, 6, 0, 0, 0)]))];
    let fields = vec![(0x41, Tree::Struct(0x40, Vec::new())), (0x42, Tree::Struct(0x50, vec![(0x43, Tree::leaf(U32, 7))]))];
    (Tree::Struct(0x40, fields).sheet(), Plan::of(defs).bytes())
}

/// Examples that are small enough for theorems.
pub fn small() -> Vec<Fixed> {
    let one: Gives = (&[(0x40, 8)], 1);
    let empty = vec![Tree::Struct(0x40, Vec::new())];
    let text = files(1, 8, vec![member(0x41, 0x0B, 1, 0, 0)], vec![(0x41, Tree::text(b"ab"))]);
    [
        both("two structures of the root's type", chain(2), (&[(0x40, 16)], 0x8001), (&[(0x40, 8), (0x40, 8)], 2)),
        both("nothing but the root", chain(1), one, one),
        both("a root without bytes behind another", embedded_pointers(1, empty), (&[(0x40, 0)], 1), (&[(0x40, 0), (0x40, 0)], 2)),
        both("a root named as the block of texts", text, (&[(1, 11)], 0x3001), (&[(1, 3), (1, 8)], 2)),
        both("a root named as the block of numbers", beside_numbers(), (&[(6, 24)], 0x8001), (&[(6, 8), (6, 16)], 2)),
        both("the root's block, then another", before_another(), (&[(0x40, 32), (0x50, 4)], 0x1_0001), (&[(0x40, 16), (0x50, 4), (0x40, 16)], 3)),
    ]
    .into_iter()
    .flatten()
    .chain([108, 123].map(|out| with_output("two structures of the root's type, root alone", true, chain(2), out, 13)))
    .collect()
}

/// The same with an output of so many bytes, which gives this number.
fn with_output(what: &str, alone: bool, files: (Vec<u8>, Vec<u8>), out: u64, code: u32) -> Fixed {
    let mut f = fixed_way(alone, &format!("{what}, an output of {out} bytes: {code}"), files);
    f.case.limits.out = out;
    assert_eq!(f.case.within(&f.case.limits).code(), code, "{}", f.what);
    f
}

/// Structures by pointer of so many names, and of the root's own. The root's members are all of one name: one row is the value of each.
fn blocks(names: u32) -> (Vec<u8>, Vec<u8>) {
    let refers = (0..names).map(|k| 0x1_0000 + k).chain([0x40]);
    let root = refers.map(|name| member(0x41, 0x0C, 3, 0, name)).collect();
    let shared = (1..names).map(|k| (0x1_0000 + k, Body::Same(1)));
    let defs = [(0x40, Body::Structure(0, 8, 0, root)), (0x1_0000, Body::Structure(0, 0, 0, Vec::new()))].into_iter().chain(shared);
    let defs = defs.map(|(name, body)| Def { name, body, gap: Vec::new() }).collect();
    let plan = Plan { sections: vec![Section::Psch(defs)], tail: Vec::new() };
    // Its own type has no definition.
    (Tree::Struct(0x40, vec![(0x41, Tree::Struct(0x60, Vec::new()))]).sheet(), plan.bytes())
}

fn refused(what: &str, alone: bool, files: (Vec<u8>, Vec<u8>)) -> Fixed {
    let f = fixed_way(alone, &format!("{what}: 10"), files);
    assert_eq!(f.generous.code(), 10, "{}", f.what);
    f
}

/// Where refusal 10 is given in one way alone; what is built is too long for an output of 64 bytes.
pub fn wide() -> Vec<Fixed> {
    let stand = "4,095 blocks, one of them of the root's name";
    let full = "a root without bytes behind a full block of its name";
    gives(&fixed_way(true, full, behind_texts(32, 32_768)), (&[(1, 0x10_0000), (0x50, 16), (1, 0)], 3));
    vec![
        with_output(stand, false, blocks(4_094), 64, 13),
        refused("4,095 blocks, one of them of the root's name, and one more for it", true, blocks(4_094)),
        refused(full, false, behind_texts(32, 32_768)),
        with_output("a root without bytes in a block of its own", true, behind_texts(32, 32_768), 64, 13),
    ]
}

/// All of them.
pub fn all() -> Vec<Fixed> {
    small().into_iter().chain(wide()).collect()
}
