//! One step inside and outside of each rule on sheets, schemas and sizes; numbers at which 32 bits overflow.
use super::plan::{member, Body, Plan};
use super::tree::{Tree, NULL_LEAF};
use super::{general, Size};
use crate::bytes::{put_u32, u32_at};
use crate::model::schema::{next_section, Member, PSCH};
use crate::model::sheet::*;
use crate::model::write::ARRAYINFO;
use crate::rng::Rng;

/// One row of the sheet brought to an edge of its layout.
pub fn row_edges(rng: &mut Rng, size: Size) -> (Vec<u8>, Vec<u8>) {
    let (mut sheet, schema) = general(rng, size);
    if rng.chance(1, 12) {
        return (odd_root(rng), schema);
    }
    let rows = u32_at(&sheet, 0) as usize;
    if rng.chance(1, 3) {
        number_row(rng, &mut sheet, rows);
        return (sheet, schema);
    }
    // A row of a kind that is picked first, so that rare kinds get their turn.
    let kind = rng.below(22) as u8;
    let same: Vec<usize> = (0..rows).filter(|r| sheet[4 + 24 * r] == kind).collect();
    let at = 4 + 24 * if same.is_empty() { rng.below(rows) } else { *rng.pick(&same) };
    edit_row(rng, &mut sheet, at);
    (sheet, schema)
}

/// A root that is no Struct, with a text byte above 127 now and then.
fn odd_root(rng: &mut Rng) -> Vec<u8> {
    let byte = *rng.pick(&[127, 128, 255]);
    match rng.below(4) {
        0 => Tree::Text(vec![b'a', byte]),
        1 => Tree::Array(vec![Tree::Text(vec![byte])]),
        2 => Tree::Map(vec![NULL_LEAF, Tree::Text(vec![byte])]),
        _ => Tree::Leaf(rng.below(19) as u8, [0; 4]),
    }
    .sheet()
}

/// A row without children or text becomes a number at an edge of its width.
fn number_row(rng: &mut Rng, s: &mut [u8], rows: usize) {
    let leaves: Vec<usize> = (1..rows).map(|r| 4 + 24 * r).filter(|at| s[*at] <= BYTES && s[*at] != STR).collect();
    if leaves.is_empty() {
        return;
    }
    let at = *rng.pick(&leaves);
    let wide = *rng.pick(&[(BOOL, 1), (I8, 7), (U8, 8), (I16, 15), (U16, 16)]);
    let edge = 1u32 << wide.1;
    s[at] = wide.0;
    s[at + 8..at + 24].fill(0);
    let x = *rng.pick(&[edge - 1, edge, 0u32.wrapping_sub(edge), 0u32.wrapping_sub(edge + 1), 2 * edge - 1, u32::MAX]);
    put_u32(s, at + 8, x);
}

fn edit_row(rng: &mut Rng, s: &mut [u8], at: usize) {
    let kind = s[at];
    let field = |k: usize| at + 8 + 4 * k;
    let add = |s: &mut [u8], place: usize, x: u32| {
        let old = u32_at(s, place);
        put_u32(s, place, old.wrapping_add(x));
    };
    match rng.below(12) {
        0 => s[at + rng.range(1, 3)] = 1,
        1 => s[at] = *rng.pick(&[21, 22, 255]),
        2 => put_u32(s, at + 4, 0x41),
        3 => add(s, field(rng.below(4)), 1),
        4 => add(s, field(rng.below(4)), u32::MAX),
        _ => match kind {
            BOOL => put_u32(s, field(0), rng.below(3) as u32),
            I8 => put_u32(s, field(0), *rng.pick(&[127, 128, -128i32 as u32, -129i32 as u32, 255])),
            U8 => put_u32(s, field(0), *rng.pick(&[255, 256, u32::MAX])),
            I16 => put_u32(s, field(0), *rng.pick(&[32_767, 32_768, -32_768i32 as u32, -32_769i32 as u32, 65_535])),
            U16 => put_u32(s, field(0), *rng.pick(&[65_535, 65_536, u32::MAX])),
            MAP => add(s, field(1), *rng.pick(&[0x8000_0000, 0x4000_0000, 1])),
            ARRAY => add(s, field(rng.below(2)), *rng.pick(&[0x8000_0000, 0x4000_0000, 1])),
            STRUCT => add(s, field(rng.range(1, 2)), *rng.pick(&[0x8000_0000, 0x4000_0000, 1])),
            STR => add(s, field(rng.below(2)), *rng.pick(&[0x8000_0000, 1, u32::MAX])),
            _ => put_u32(s, field(rng.below(4)), *rng.pick(&[0, 1, u32::MAX])),
        },
    }
}

/// The place of a PSCH section.
fn find_psch(file: &[u8]) -> Option<(usize, usize)> {
    let mut at = 0;
    while let Ok(Some((name, section))) = next_section(file, at) {
        if name == PSCH {
            return Some((at, section.len()));
        }
        at += section.len();
    }
    None
}

/// Counts, places and lengths of a PSCH section at their edges.
pub fn schema_edges(rng: &mut Rng, size: Size) -> (Vec<u8>, Vec<u8>) {
    let (sheet, mut schema) = general(rng, size);
    let Some((at, length)) = find_psch(&schema) else { return (sheet, schema) };
    let count = u32_at(&schema, at + 8) as usize;
    let entry = |rng: &mut Rng| at + 12 + 8 * rng.below(count.max(1));
    match rng.below(8) {
        0 => put_u32(&mut schema, at + 8, count as u32 + *rng.pick(&[0x2000_0000, 0x4000_0000, 0x8000_0000, 1])),
        1 | 2 => {
            // The section ends sooner; what stood behind its end is gone.
            let less = rng.range(1, 13).min(length);
            schema.drain(at + length - less..at + length);
            put_u32(&mut schema, at + 4, (length - less) as u32);
        }
        3 if count > 0 => {
            let place = entry(rng) + 4;
            let near = *rng.pick(&[length as u32 - 4, length as u32 - 8, length as u32 - 3, length as u32, 0xFFFF_FFFC, 0xFFFF_FFF4, 0xFFFF_FFFF, 12]);
            put_u32(&mut schema, place, near);
        }
        4 => put_u32(&mut schema, at + 4, *rng.pick(&[0, 7, 8, 11, 12, length as u32 + 1, u32::MAX, length as u32 | 0x8000_0000])),
        5 if count > 0 => {
            // A definition with one entry more or fewer, or as many as can be.
            let place = at + u32_at(&schema, entry(rng) + 4) as usize;
            if place + 4 <= schema.len() {
                let word = u32_at(&schema, place);
                put_u32(&mut schema, place, *rng.pick(&[word.wrapping_add(1), word.wrapping_sub(1), word | 0xFFFF, word | 0xFF_FFFF, word ^ 0x0100_0000]));
            }
        }
        6 => {
            // A header of so many bytes at the section's end.
            let head = rng.bytes(12);
            let k = rng.range(3, 12);
            let place = length as u32;
            let mut more = vec![rng.below(3) as u8, 0, 0, *rng.pick(&[0, 0, 0, 1])];
            more.extend(&head[..8]);
            let end = at + length;
            schema.splice(end..end, more[..k].iter().copied());
            put_u32(&mut schema, at + 4, (length + k) as u32);
            if count > 0 {
                let e = entry(rng);
                put_u32(&mut schema, e + 4, place);
            }
        }
        _ => schema.truncate(schema.len() - rng.below(9).min(schema.len())),
    }
    (sheet, schema)
}

/// Sizes at which sums and products of 32 bits overflow, and those of a block and of the charge's cap.
pub const LARGE: [u32; 12] = [
    0xFFFF_FFFF, 0x8000_0000, 0xFFFF_FFF0, 0xFFFF_0001, 0x1_0000, 0x10_0000, 0x10_0001, 4_194_288, 4_194_289, 4_194_304, 0x5555_5556, 0xFFFF_FFE8,
];

/// A large structure inline, in runs with no or few elements, as a pair.
pub fn size_edges(rng: &mut Rng, _size: Size) -> (Vec<u8>, Vec<u8>) {
    let large = *rng.pick(&LARGE);
    let offset = *rng.pick(&[0, 8, 15, 16, 17, 24, 65_535]);
    let root_size = *rng.pick(&[0, 16, 40, 64]);
    let n = rng.below(3);
    let items = |n: usize| Tree::Array(vec![NULL_LEAF; n]);
    let info = member(ARRAYINFO, 0x0C, *rng.pick(&[0, 0, 1, 3]), 0, 0x50);
    let (m, v): (Member, Tree) = match rng.below(5) {
        0 => (member(0x41, 0x0C, 0, offset, 0x50), NULL_LEAF),
        1 => (member(0x41, 0x0D, 1, offset, rng.below(3) as u32 * 0x1_0000), items(n)),
        2 => (member(0x41, 0x0D, 0, offset, 0), items(n)),
        3 => (member(0x41, 0x10, 1, offset, 0), Tree::Map(vec![NULL_LEAF; 2 * n])),
        _ => (member(0x41, 0x0B, 0, offset, rng.u32() | 0xFF00_0000), Tree::text(b"text")),
    };
    let root = vec![info, m, member(0x42, 6, 0, root_size.max(4) as u16 - 4, 0)];
    let inner = vec![member(0x43, 6, 0, 0, 0)];
    let plan = Plan::of(vec![(0x40, Body::Structure(0, root_size, 0, root)), (0x50, Body::Structure(0, large, 0, inner))]);
    (Tree::Struct(0x40, vec![(0x41, v), (0x42, Tree::leaf(U32, 7))]).sheet(), plan.bytes())
}

/// A structure of more than 4,096 entries, so that 12 and 16 bits number different ones.
pub fn wide_structures(rng: &mut Rng, _size: Size) -> (Vec<u8>, Vec<u8>) {
    let n = 4_096 + rng.below(200);
    let mut m: Vec<Member> = vec![member(ARRAYINFO, 0, 0, 0, 0); n];
    let last = n - 1;
    m[last - 4096.min(last)] = member(ARRAYINFO, 4, 0, 0, 0xE001);
    m[last] = member(ARRAYINFO, 6, 0, 0, 0xE000);
    m[7] = member(ARRAYINFO, 0x0C, 0, 0, 0x51);
    let index = last as u32 + *rng.pick(&[0, 0, 1, 0x1000, 0x2000]);
    m[1] = member(0x41, 0x0D, 0, 0, index);
    m[2] = member(0x42, 0x0F, 0, 16, index);
    m[3] = member(0x43, 0x10, 1, 24, *rng.pick(&[7, 0x1007, 0xFFFF]));
    let enums = |k: u32| Body::Enum(vec![(crate::model::text::hash_text(b"a"), k), (crate::model::text::hash_text(b"b"), k + 1)]);
    let defs = vec![
        (0x40, Body::Structure(0, 48, 0, m)),
        (0x51, Body::Structure(0, 8, 0, vec![member(0x44, 6, 0, 0, 0), member(0x45, 6, 0, 4, 0)])),
        (0xE000, enums(1)),
        (0xE001, enums(4)),
    ];
    let numbers = |n: usize| (0..n).map(|k| Tree::leaf(U32, k as u32 + 1)).collect::<Vec<_>>();
    let fields = vec![(0x41, Tree::Array(numbers(3))), (0x42, Tree::text(b"a, b")), (0x43, Tree::Map(numbers(4)))];
    (Tree::Struct(0x40, fields).sheet(), Plan::of(defs).bytes())
}

/// A charge of 4,194,304, a little less or more.
pub fn full_charge(rng: &mut Rng, _size: Size) -> (Vec<u8>, Vec<u8>) {
    let (text, parts) = (rng.below(30), rng.range(1, 3));
    let mut left = 4_194_304 + rng.below(3) as u32 - 1;
    let mut root = Vec::new();
    let mut fields = Vec::new();
    let mut defs = Vec::new();
    if text > 0 {
        root.push(member(0x41, 0x0B, 1, 0, 0));
        fields.push((0x41, Tree::Text(vec![b't'; text])));
        left -= 17 + text as u32;
    }
    for k in 1..parts as u32 {
        let size = rng.below(1_000_000) as u32;
        left -= 16 + size;
        root.push(member(0x50 + k, 0x0C, 3, 8 * k as u16, 0x50 + k));
        fields.push((0x50 + k, Tree::Struct(0x50 + k, Vec::new())));
        defs.push((0x50 + k, Body::Structure(0, size, 0, Vec::new())));
    }
    defs.push((0x40, Body::Structure(0, left - 16, 0, root)));
    (Tree::Struct(0x40, fields).sheet(), Plan::of(defs).bytes())
}
