//! Cases near the limits: long runs, many remarks, full blocks, many blocks, long texts, long files.
use super::plan::{member, Body, Def, Plan, Section};
use super::text;
use super::tree::{Tree, NULL_LEAF};
use super::value;
use super::Size;
use crate::model::schema::Member;
use crate::model::sheet::{BYTES, U32};
use crate::model::write::ARRAYINFO;
use crate::model::{build, GENEROUS, MAX_FILE};
use crate::rng::Rng;

/// A definition of another kind, outside, or over another one.
pub fn odd_definition(rng: &mut Rng, plan: &mut Plan) {
    let Some(Section::Psch(defs)) = plan.sections.iter_mut().find(|s| matches!(s, Section::Psch(_))) else { return };
    let body = match rng.below(4) {
        0 => Body::Word((rng.range(2, 255) as u32) << 24),
        1 => Body::Place(rng.below(200) as u32),
        2 => Body::Place(rng.u32()),
        _ => Body::Word(rng.u32() & 0x0100_00FF),
    };
    let at = rng.below(defs.len() + 1);
    let name = if rng.chance(1, 2) { 0x5000 } else { rng.u32() };
    defs.insert(at, Def { name, body, gap: Vec::new() });
}

/// Arrays and maps of some hundred or thousand elements.
pub fn long_runs(rng: &mut Rng, size: Size) -> (Vec<u8>, Vec<u8>) {
    let most = if size == Size::Full && rng.chance(1, 10) { 8_000 } else { 400 };
    let n = rng.range(most / 2, most);
    let elements: [(u8, u8, u32); 12] = [
        (2, 0, 0), (4, 0, 0), (6, 0, 0), (0x20, 0, 0), (7, 0, 0), (8, 0, 0), (0x0A, 0, 0), (0x0B, 7, 0), (0x0B, 0, 5 << 16),
        (0x0C, 0, 0x50), (0x0C, 3, 0x50), (0x0B, 3, 0),
    ];
    let (ty, sub, reference) = *rng.pick(&elements);
    let embedded = rng.chance(1, 4);
    let subtype = if embedded { 1 } else { 0 };
    let count = if embedded { rng.range(1, n + 1) as u32 } else { 0 };
    let root = vec![member(ARRAYINFO, ty, sub, 0, reference), member(0x41, 0x0D, subtype, 0, count << 16), member(ARRAYINFO, 0x0C, 0, 0, 0x50), member(0x42, 0x10, 1, 16, 2)];
    let root_size = if embedded { 40 + 16 * count.min(600) } else { 40 };
    let inner = vec![member(0x43, 2, 0, 0, 0), member(0x44, 0x0B, 1, 4, 0)];
    let plan = Plan::of(vec![(0x40, Body::Structure(0, root_size, 0, root)), (0x50, Body::Structure(0, 12, 0, inner))]);
    let bad = if rng.chance(1, 5) { rng.below(n) } else { n };
    let item = |rng: &mut Rng, k: usize| match ty {
        _ if k == bad => Tree::leaf(BYTES, 0),
        0x0C if k % 3 == 0 => Tree::Struct(0x50, vec![(0x43, Tree::leaf(U32, k as u32)), (0x44, Tree::text(b"txt"))]),
        0x0C => NULL_LEAF,
        8 | 0x0A => Tree::Leaf(13, [1, 2, 3, k as u32]),
        0x0B => Tree::text(rng.pick(&text::WORDS).as_bytes()),
        _ => value::number(rng),
    };
    let items: Vec<Tree> = (0..n).map(|k| item(rng, k)).collect();
    let mut fields = vec![(0x41, Tree::Array(items))];
    if rng.chance(1, 4) {
        let pairs = (0..2 * (n / 3)).map(|k| if k % 2 == 0 { Tree::leaf(U32, k as u32) } else { Tree::text(b"v") }).collect();
        fields.push((0x42, Tree::Map(pairs)));
    }
    (Tree::Struct(0x40, fields).sheet(), plan.bytes())
}

/// Members each of which gives a remark, whatever their value; some twice.
fn failing(rng: &mut Rng, n: usize) -> Vec<Member> {
    (0..n)
        .map(|k| {
            let name = 0x1000 + if rng.chance(1, 10) { rng.below(n) } else { k } as u32;
            match rng.below(8) {
                0 => member(name, 0x11, 0, 0, 0),
                1 => member(name, 0x0B, 4 + rng.below(3) as u8, 0, 0),
                2 => member(name, 6, 0, 0xFFF0, 0),
                3 => member(name, 0x0C, 0, 0, 0x7000 + k as u32),
                4 => member(name, 0x0D, 0, 0, 0xFFFF_FFFF),
                5 => member(name, 0x10, 0, 0, 0),
                6 => member(name, 0x0D, 1, 0, 0),
                _ => member(name, 0x40 + rng.below(100) as u8, 0, 0, 0),
            }
        })
        .collect()
}

fn remarks(rng: &mut Rng, n: usize, structures: usize) -> (Vec<u8>, Vec<u8>) {
    // The first member describes what no array can have.
    let mut defs = vec![(0x40, Body::Structure(0, 64, 0, vec![member(ARRAYINFO, 0x0F, 0, 0, 0), member(ARRAYINFO, 0x0C, 3, 0, 0x50), member(0x41, 0x0D, 0, 0, 1), member(0x42, 0x11, 0, 0, 0)]))];
    for s in 0..structures {
        let mut m = vec![member(ARRAYINFO, 0x0F, 0, 0, 0)];
        m.extend(failing(rng, n / structures));
        defs.push((0x50 + s as u32, Body::Structure(0, 16, 0, m)));
    }
    let items = (0..structures + rng.below(3)).map(|_| Tree::Struct(0x50 + rng.below(structures) as u32, Vec::new())).collect();
    let mut all: Vec<(u32, Tree)> = vec![(0x41, Tree::Array(items))];
    if rng.chance(1, 3) {
        all.push((0x42, NULL_LEAF));
    }
    (Tree::Struct(0x40, all).sheet(), Plan::of(defs).bytes())
}

/// Several thousand distinct remarks.
pub fn many_remarks(rng: &mut Rng, _size: Size) -> (Vec<u8>, Vec<u8>) {
    let n = *rng.pick(&[1_000, 1_024, 1_030, 2_048, 3_000, 5_000]) + rng.below(5);
    let structures = rng.range(1, 4);
    remarks(rng, n, structures)
}

pub fn some_remarks(rng: &mut Rng, _size: Size) -> (Vec<u8>, Vec<u8>) {
    let n = rng.range(20, 200);
    remarks(rng, n, 2)
}

/// Block 1 filled to 0x100000, a byte less or more, with items of length 0 behind.
pub fn full_blocks(rng: &mut Rng, _size: Size) -> (Vec<u8>, Vec<u8>) {
    let stride = 32_768u32;
    let n = *rng.pick(&[31, 31, 31, 32, 32, 33]) as usize;
    let rest = 0x10_0000 - stride as usize * n.min(32);
    let near = (rest + rng.below(5)).saturating_sub(2);
    let zero = if rng.chance(3, 4) { 0 } else { rng.below(40) as u32 };
    let mut root = vec![member(ARRAYINFO, 0x0B, 0, 0, stride << 16), member(0x41, 0x0D, 0, 0, 0)];
    let mut fields = vec![(0x41, Tree::Array(vec![NULL_LEAF; n]))];
    let mut at = 16;
    let mut steps: Vec<(u32, Member, Tree)> = Vec::new();
    // A text that fills the block, items of length 0 or little more, a text that finds no room.
    steps.push((8, member(0x42, 0x0B, 1, 0, 0), Tree::Text(vec![b't'; near.saturating_sub(1)])));
    steps.push((8, member(0x43, 0x0C, 3, 0, 1), Tree::Struct(1, Vec::new())));
    steps.push((8, member(0x44, 0x0B, 2, 0, 0), Tree::text(b"end")));
    steps.push((8, member(0x45, 0x0C, 3, 0, 1), Tree::Struct(1, Vec::new())));
    if rng.chance(1, 3) {
        rng.shuffle(&mut steps);
    }
    steps.truncate(rng.range(1, 4));
    for (need, mut m, v) in steps {
        m.offset = at;
        at += need as u16;
        fields.push((m.name, v));
        root.push(m);
    }
    if rng.chance(1, 4) {
        rng.shuffle(&mut fields);
    }
    let root_name = if rng.chance(1, 4) { 1 } else { 0x40 };
    let mut defs = vec![(1, Body::Structure(0, zero, 0, Vec::new()))];
    if root_name == 0x40 {
        defs.push((0x40, Body::Structure(0, at as u32, 0, root)));
    } else {
        defs[0].1 = Body::Structure(0, at as u32, 0, root);
    }
    (Tree::Struct(root_name, fields).sheet(), Plan::of(defs).bytes())
}

/// As many blocks as there can be, one less or one more.
pub fn many_blocks(rng: &mut Rng, _size: Size) -> (Vec<u8>, Vec<u8>) {
    let n = rng.range(4_092, 4_094);
    let size = rng.below(5) as u32;
    let mut defs: Vec<(u32, Body)> = (0..n).map(|k| (0x1_0000 + k as u32, Body::Structure(0, size, 0, Vec::new()))).collect();
    let root = vec![member(ARRAYINFO, 0x0C, 3, 0, 0), member(0x41, 0x0D, 0, 0, 0), member(0x42, 0x0B, 1, 16, 0)];
    defs.push((0x40, Body::Structure(0, 24, 0, root)));
    let mut items: Vec<Tree> = (0..n).map(|k| Tree::Struct(0x1_0000 + k as u32, Vec::new())).collect();
    for _ in 0..rng.below(4) {
        let k = rng.below(n);
        items.push(Tree::Struct(0x1_0000 + k as u32, Vec::new()));
    }
    if rng.chance(1, 2) {
        // The root's block is there already, and counts only where the root gets one more.
        items.push(Tree::Struct(0x40, Vec::new()));
    }
    let mut fields = vec![(0x41, Tree::Array(items))];
    if rng.chance(1, 2) {
        fields.push((0x42, Tree::text(b"t")));
    }
    (Tree::Struct(0x40, fields).sheet(), Plan::of(defs).bytes())
}

/// Texts of 65,535 bytes together, one less or one more.
pub fn long_texts(rng: &mut Rng, _size: Size) -> (Vec<u8>, Vec<u8>) {
    let total = rng.range(65_533, 65_537);
    let n = rng.range(1, 5);
    let mut root = Vec::new();
    let mut fields = Vec::new();
    let mut left = total;
    for k in 0..n {
        let length = if k + 1 == n { left } else { rng.below(left + 1) };
        left -= length;
        let subtype = *rng.pick(&[0, 1, 2, 3, 7]);
        let name = 0x41 + k as u32;
        root.push(member(name, 0x0B, subtype, 16 * k as u16, 16 << 16));
        if rng.chance(1, 3) {
            root.push(member(name, 0x0B, 3, 16 * k as u16, 0));
        }
        if rng.chance(1, 3) {
            root.push(member(name, *rng.pick(&[6, 7, 8, 0x0A, 0x0A]), 0, 16 * k as u16, 0));
        }
        let piece = *rng.pick(&["x", "0", " ", ",", "1 ", "-.5,"]);
        fields.push((name, Tree::Text(piece.bytes().cycle().take(length).collect())));
    }
    let plan = Plan::of(vec![(0x40, Body::Structure(0, 16 * n as u32, 0, root))]);
    (Tree::Struct(0x40, fields).sheet(), plan.bytes())
}

/// Sheets of 16,384 rows, one less or one more.
pub fn large_sheets(rng: &mut Rng, _size: Size) -> (Vec<u8>, Vec<u8>) {
    let n = rng.range(16_381, 16_384);
    let root = vec![member(ARRAYINFO, *rng.pick(&[2, 5, 6, 7, 0x0E]), 0, 0, 0), member(0x41, 0x0D, 0, 0, 0), member(0x42, 6, 0, 16, 0)];
    let plan = Plan::of(vec![(0x40, Body::Structure(0, 20, 0, root))]);
    let items = (0..n).map(|k| Tree::leaf(U32, k as u32)).collect();
    let mut fields = vec![(0x41, Tree::Array(items))];
    if rng.chance(1, 3) {
        fields.push((0x42, Tree::leaf(U32, 9)));
    }
    (Tree::Struct(0x40, fields).sheet(), plan.bytes())
}

/// Files of 16,777,216 bytes, one less or one more: names that share a definition of 65,535 entries.
pub fn long_files(rng: &mut Rng, _size: Size) -> (Vec<u8>, Vec<u8>) {
    let names = 21u32;
    let make = |root_size: u32| {
        let entries = vec![member(ARRAYINFO, 0, 0, 0, 0); 65_535];
        let mut defs = vec![(0x1000, Body::Structure(0, 0, 0, entries))];
        defs.extend((1..names).map(|k| (0x1000 + k, Body::Same(0))));
        let root = vec![member(ARRAYINFO, 0x0C, 3, 0, 0), member(0x41, 0x0D, 0, 0, 0)];
        defs.push((0x40, Body::Structure(0, root_size, 0, root)));
        Plan::of(defs).bytes()
    };
    let items = (0..names).map(|k| Tree::Struct(0x1000 + k, Vec::new())).collect();
    let sheet = Tree::Struct(0x40, vec![(0x41, Tree::Array(items))]).sheet();
    let schema = make(16);
    let length = build(false, &sheet, &schema, &GENEROUS).answer.map_or(0, |p| p.file.len() as u64);
    let more = (MAX_FILE - length) as u32 + rng.below(3) as u32 - 1;
    (sheet, make(16 + more))
}
