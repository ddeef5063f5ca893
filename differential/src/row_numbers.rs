//! Sheets that are recorded whatever the seed: first children and counts that end in the right 16 bits, and 16,384 rows.
use crate::bytes::put_u32;
use crate::fixed::{fixed, Fixed};
use crate::gen::plan::{member, Body, Plan};
use crate::gen::tree::{Tree, NULL_LEAF};
use crate::model::sheet::U32;

/// The root's field of this place, a to d, set to another number; without it the sheet keeps its layout.
fn with(root: &Tree, place: usize, number: u32) -> Vec<u8> {
    let mut sheet = root.sheet();
    put_u32(&mut sheet, 12 + 4 * place, number);
    sheet
}

/// One structure with one number.
fn schema() -> Vec<u8> {
    Plan::of(vec![(0x40, Body::Structure(0, 4, 0, vec![member(0x41, 6, 0, 0, 0)]))]).bytes()
}

pub fn all() -> Vec<Fixed> {
    let one = Tree::Struct(0x40, vec![(0x41, Tree::leaf(U32, 7))]);
    let pair = Tree::Map(vec![NULL_LEAF; 2]);
    let none = Tree::Array(Vec::new());
    let full = Tree::Struct(0x40, vec![(0, NULL_LEAF); 16_383]);
    let sheets = [
        ("a Struct's first child is 1", one.sheet()),
        ("the Struct's first child is 0x10001: 1", with(&one, 1, 0x1_0001)),
        ("the Struct has 0x10001 children: 1", with(&one, 2, 0x1_0001)),
        ("a Map of one pair, its first child 1: 3", pair.sheet()),
        ("the Map's first child is 0x10001: 1", with(&pair, 0, 0x1_0001)),
        ("the Map has 0x80000001 pairs, twice as many are 2 in 32 bits: 1", with(&pair, 1, 0x8000_0001)),
        ("the Map has 0x10001 pairs: 1", with(&pair, 1, 0x1_0001)),
        ("the Map has 0x8001 pairs, twice as many are 2 in 16 bits: 1", with(&pair, 1, 0x8001)),
        ("an empty Array, its first child 1: 3", none.sheet()),
        ("the empty Array's first child is 0x10001: 1", with(&none, 0, 0x1_0001)),
        ("16,384 rows, 16,383 of them children", full.sheet()),
        ("one child more is claimed: 1", with(&full, 2, 16_384)),
    ];
    sheets.into_iter().map(|(what, sheet)| fixed(what, (sheet, schema()))).collect()
}
