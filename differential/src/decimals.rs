//! Decimals typed as text that are recorded whatever the seed: the worked examples of request 2.6, each with its answer.
use crate::fixed::{fixed, Fixed};
use crate::gen::plan::{member, Body, Plan};
use crate::gen::tree::Tree;
use crate::model::sheet::{I32, U32};
use crate::model::state::Remark;
use crate::model::text::hash_text;
use crate::model::write::ARRAYINFO;
use Gives::*;

/// What stands in the member's 16 bytes, zeros behind it; or nothing, and remark 2 with this detail.
#[derive(Clone, Copy)]
enum Gives {
    Words(&'static [u32]),
    Wrong(u32),
}

/// A member's type, its value, and what that gives.
type Example = (u8, Tree, Gives);

const I32_TYPE: u8 = 5;
const F32_TYPE: u8 = 7;
const VEC2_TYPE: u8 = 8;
const ENUM_TYPE: u8 = 0x0E;
const FLAGS_TYPE: u8 = 0x0F;
/// Three floats in the structure's bytes.
const RUN_TYPE: u8 = 0x0D;

fn text(t: &str) -> Tree {
    Tree::text(t.as_bytes())
}

fn texts(ty: u8, list: &[(&str, &'static [u32])]) -> Vec<Example> {
    list.iter().map(|(t, words)| (ty, text(t), Words(words))).collect()
}

fn wrong(ty: u8, detail: u32, list: &[&str]) -> Vec<Example> {
    list.iter().map(|t| (ty, text(t), Wrong(detail))).collect()
}

fn floats() -> Vec<Example> {
    let list: [(&str, &[u32]); 18] = [
        ("12.5", &[0x4148_0000]),
        (" 12.5\n", &[0x4148_0000]),
        ("-0", &[0x8000_0000]),
        ("-0.0", &[0x8000_0000]),
        ("-.0", &[0x8000_0000]),
        ("5", &[0x40A0_0000]),
        ("5.", &[0x40A0_0000]),
        (".5", &[0x3F00_0000]),
        ("+.5", &[0x3F00_0000]),
        ("000000000", &[0]),
        ("0.1", &[0x3DCC_CCCD]),
        ("16777217", &[0x4B80_0000]),
        ("16777219", &[0x4B80_0002]),
        ("8388608.5", &[0x4B00_0000]),
        ("8388609.5", &[0x4B00_0002]),
        ("123456789", &[0x4CEB_79A3]),
        ("999999999", &[0x4E6E_6B28]),
        (".000000001", &[0x3089_705F]),
    ];
    texts(F32_TYPE, &list)
}

fn wholes() -> Vec<Example> {
    let signed = texts(I32_TYPE, &[("12.5", &[12]), ("-12.9", &[0xFFFF_FFF4]), ("-0.9", &[0]), (".5", &[0]), ("5.", &[5]), ("-0", &[0])]);
    let others: [(u8, &str, &[u32]); 7] = [
        (0, "7.7", &[0x0700_0000]),
        (2, "-1.9", &[0xFF00_0000]),
        (2, "257.5", &[0x0100_0000]),
        (4, "+99999999.", &[0xE0FF_0000]),
        (6, "1234567890", &[0x4996_02D2]),
        (0x1E, "1.5", &[0x0001_0000]),
        (0x20, "-2.5", &[0xFFFF_FFFF, 0xFFFF_FFFE]),
    ];
    let others = others.into_iter().map(|(ty, t, words)| (ty, text(t), Words(words)));
    signed.into_iter().chain(others).chain(wrong(I32_TYPE, 2, &["0x1.5", "."])).collect()
}

/// Entries are `1.5`, 77, and `red`, 9.
fn named() -> Vec<Example> {
    let mut out = texts(ENUM_TYPE, &[("1.5", &[1]), ("-1.5", &[0xFFFF_FFFF])]);
    out.extend(texts(FLAGS_TYPE, &[("6.5", &[6]), ("1.5,red", &[0x2200])]));
    out.push((FLAGS_TYPE, Tree::Array(vec![text("1.5"), text("4.5")]), Words(&[5])));
    out
}

fn vectors() -> Vec<Example> {
    let pair: &[u32] = &[0x3FC0_0000, 0x4020_0000];
    let list: [(&str, &[u32]); 4] =
        [("1.5,2.5", pair), (" 1.5 \t, 2.5 ,", pair), ("1,2,3,4,5,6", &[0x3F80_0000, 0x4000_0000]), ("-0 .5", &[0x8000_0000, 0x3F00_0000])];
    let mut out = texts(VEC2_TYPE, &list);
    out.push((VEC2_TYPE, Tree::Array(vec![text("1.5"), text("-2.5"), text("7")]), Words(&[0x3FC0_0000, 0xC020_0000])));
    out.push((VEC2_TYPE, Tree::Array(vec![text("1.5"), Tree::leaf(I32, 16_777_217)]), Words(&[0x3FC0_0000, 0x4B80_0000])));
    out.push((0x0A, text("1.5,2,3,-.25"), Words(&[0x3FC0_0000, 0x4000_0000, 0x4040_0000, 0xBE80_0000])));
    out.push((0x14, text("1.5 2 3 4"), Words(&[0x3FC0_0000, 0x4000_0000, 0x4040_0000])));
    out.push((9, text("1.5,2"), Wrong(5)));
    out
}

/// A run is kept whole or not at all.
fn runs() -> Vec<Example> {
    let full = vec![text("16777217"), text(".25"), text("-0")];
    vec![
        (RUN_TYPE, Tree::Array(full), Words(&[0x4B80_0000, 0x3E80_0000, 0x8000_0000])),
        (RUN_TYPE, Tree::Array(vec![text(".25"), text("x")]), Words(&[])),
        (RUN_TYPE, Tree::Array(vec![text(".25"), Tree::leaf(U32, 7)]), Words(&[0x3E80_0000, 0x40E0_0000])),
    ]
}

const WRONG_FLOATS: [&str; 11] = ["", " ", ".", "+", "1 .5", "1,5", "0x10", "true", "1.2.3", "1.5f", "--1"];
const WRONG_VECTORS: [&str; 8] = ["1.5", "", " , ", "1.5,2.5,x", "x,nan", "1.5,x,nan", "1,2,3,4,5,x", "1.5 . 2"];

const REFUSED: [(u8, &str); 20] = [
    (F32_TYPE, "1234567890"),
    (F32_TYPE, "000000000.5"),
    (F32_TYPE, "0.1234567890"),
    (F32_TYPE, "1e5"),
    (F32_TYPE, "1.5e0"),
    (F32_TYPE, "nan"),
    (F32_TYPE, "-inf"),
    (I32_TYPE, "1234567890.5"),
    (I32_TYPE, "000000000.5"),
    (I32_TYPE, "99999999999999999999"),
    (I32_TYPE, "1e5"),
    (I32_TYPE, "inf"),
    (I32_TYPE, "NaN"),
    (ENUM_TYPE, "1e1"),
    (FLAGS_TYPE, "1.5e0"),
    (VEC2_TYPE, "1.5,nan,x"),
    (VEC2_TYPE, "nan"),
    (VEC2_TYPE, "1,2,3,4,5,1e5"),
    (VEC2_TYPE, "1,2,1234567890"),
    (VEC2_TYPE, "inf,x"),
];

/// A structure with a member for each of these values, 16 bytes apart.
fn files(values: &[(u8, Tree)]) -> (Vec<u8>, Vec<u8>) {
    let mut members = vec![member(ARRAYINFO, ENUM_TYPE, 0, 0, 0xE000), member(ARRAYINFO, F32_TYPE, 0, 0, 0)];
    let mut fields = Vec::new();
    for (k, (ty, value)) in values.iter().enumerate() {
        let (subtype, reference) = match *ty {
            ENUM_TYPE => (0, 0xE000),
            RUN_TYPE => (1, 3 << 16 | 1),
            _ => (0, 0),
        };
        members.push(member(0x41 + k as u32, *ty, subtype, 16 * k as u16, reference));
        fields.push((0x41 + k as u32, value.clone()));
    }
    let entries = [("1.5", 77), ("red", 9)].map(|(w, x)| (hash_text(w.as_bytes()), x)).to_vec();
    let defs = vec![(0x40, Body::Structure(0, 16 * values.len() as u32, 0, members)), (0xE000, Body::Enum(entries))];
    (Tree::Struct(0x40, fields).sheet(), Plan::of(defs).bytes())
}

/// The examples in one structure; what each gives is held against its answer.
fn built(what: &str, examples: Vec<Example>) -> Fixed {
    let values: Vec<(u8, Tree)> = examples.iter().map(|e| (e.0, e.1.clone())).collect();
    let out = fixed(what, files(&values));
    let pack = out.generous.answer.as_ref().unwrap_or_else(|n| panic!("{what}: refused with {n}"));
    let mut remarks = Vec::new();
    for (k, (_, value, gives)) in examples.iter().enumerate() {
        let mut bytes = Vec::new();
        match gives {
            Words(words) => bytes = words.iter().flat_map(|w| w.to_be_bytes()).collect(),
            Wrong(detail) => remarks.push(Remark { kind: 2, structure: 0x40, member: 0x41 + k as u32, detail: *detail }),
        }
        bytes.resize(16, 0);
        assert_eq!(pack.file[16 + 16 * k..32 + 16 * k], bytes, "{what}: {value:?}");
    }
    assert_eq!(pack.remarks, remarks, "{what}");
    out
}

fn refused((ty, t): (u8, &str)) -> Fixed {
    let out = fixed(&format!("{t:?} for a member of type {ty:#x}: 11"), files(&[(ty, text(t))]));
    assert_eq!(out.generous.code(), 11, "{}", out.what);
    out
}

pub fn all() -> Vec<Fixed> {
    let mut out = vec![
        built("decimals in float places", floats()),
        built("decimals in integer places", wholes()),
        built("decimals in enum and flags places", named()),
        built("decimals in vector places", vectors()),
        built("decimals in runs", runs()),
        built("what is no float, in float places", wrong(F32_TYPE, 3, &WRONG_FLOATS)),
        built("too few parts and parts that are no floats, in vector places", wrong(VEC2_TYPE, 4, &WRONG_VECTORS)),
    ];
    out.extend(REFUSED.into_iter().map(refused));
    out
}
