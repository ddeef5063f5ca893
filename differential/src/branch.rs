//! What the model passed through: the cases of `write_member` and `element_run`, each with its ways out.

macro_rules! named {
    ($name:ident, $names:ident: $($id:ident $text:literal),* $(,)?) => {
        #[derive(Clone, Copy, Debug, PartialEq, Eq)]
        #[repr(usize)]
        pub enum $name { $($id),* }
        pub const $names: &[&str] = &[$($text),*];
    };
}

named! { Way, WAYS:
    NoFit "no fit (1)", Wrong "wrong value (2)", FloatText "float text (11)", Remark "remark", Missing "missing",
    Written "written", Empty "empty", Cut "cut", Known "enum known", Unknown "enum unknown", NoDef "no definition",
    OwnType "own type", ByReference "by reference", Default "default", NotStruct "not a structure", Dropped "dropped",
    Blank "blank text", Null "null", Index16 "16-bit index", Index12 "12-bit index", Sub0 "subtype 0", Sub4 "subtype 4",
    OutOfRange "index out of range", OneMember "one member", SameName "same name", Full "block full", NewBlock "new block",
    OldBlock "old block", Long "longer than a block", ZeroLength "zero length", Repeated "repeated",
    Decimal "decimal", Tie "halfway between two f32s", MinusZero "minus zero", Fraction "fraction dropped", Item "decimal in an Array",
    OwnName "decimal that is an entry's name", Part "decimal as a name in a list", NoPart "no part", Few "too few parts",
    More "more than four parts", Bad "first part no float", BadBehind "part no float behind a decimal", BadFifth "part no float behind the fourth",
    FloatBehind "11 behind a decimal", FloatFifth "11 behind the fourth part", FloatItem "11 in an Array",
}

named! { Case, CASES:
    Bool "member bool", I8 "member i8", U8 "member u8", I16 "member i16", U16 "member u16", HFloat "member hfloat",
    I32 "member i32", U32 "member u32", Long "member long", F32 "member f32", Vec2 "member vec2", Vec3 "member vec3",
    Vec4 "member vec4", Vec3A "member vec3a", Vec4A "member vec4a",
    String0 "member string 0", String1 "member string 1", String2 "member string 2", String3 "member string 3",
    String7 "member string 7", String8 "member string 8", StringOther "member string other",
    Enum4 "member enum 4 bytes", Enum2 "member enum 2 bytes", Enum1 "member enum 1 byte",
    Flags4 "member flags 4 bytes", Flags2 "member flags 2 bytes", Flags1 "member flags 1 byte",
    Inline "member structure inline", Pointed "member structure pointed",
    Array "member array", ArrayPointed "member array by pointer", ArrayEmbedded "member array embedded",
    Map "member map", MapOther "member map other", Other "member other type",
    ElPointer "element structure pointer", ElStruct "element structure",
    ElString7 "element string 7", ElString8 "element string 8", ElString1 "element string 1", ElString2 "element string 2",
    ElString3 "element string 3", ElString0 "element string 0", ElStringOther "element string other",
    ElBool "element bool", ElI8 "element i8", ElU8 "element u8", ElI16 "element i16", ElU16 "element u16",
    ElHFloat "element hfloat", ElI32 "element i32", ElU32 "element u32", ElLong "element long", ElF32 "element f32",
    ElVec2 "element vec2", ElVec3 "element vec3", ElVec4 "element vec4", ElVec3A "element vec3a", ElVec4A "element vec4a",
    ElEnum "element enum", ElOther "element other type",
    Item "item filed", Noted "remark noted",
    TextFloat "text in a float place", TextVector "text in a vector place", TextInt "text in an integer place",
    TextEnum "text in an enum place", TextFlags "text in a flags place",
}

use Way::*;

const SCALAR: &[Way] = &[NoFit, Wrong, FloatText, Missing, Written];
const FIXED: &[Way] = &[NoFit, Wrong, Empty, Cut, Missing, Written];
const TEXT: &[Way] = &[NoFit, Wrong, Empty, Missing, Written];
const HASHED: &[Way] = &[NoFit, Wrong, Missing, Written];
const NAMES: &[Way] = &[NoFit, Wrong, FloatText, Known, Unknown, Missing];
const BITS: &[Way] = &[NoFit, Wrong, FloatText, Known, Unknown, OutOfRange, Missing];
const RUN: &[Way] = &[Dropped, FloatText, Written, Empty];

/// The ways out that each case can have.
pub fn ways(case: usize) -> &'static [Way] {
    const BOOL: usize = Case::Bool as usize;
    const VEC4A: usize = Case::Vec4A as usize;
    const ELBOOL: usize = Case::ElBool as usize;
    const ELVEC4A: usize = Case::ElVec4A as usize;
    if (BOOL..=VEC4A).contains(&case) {
        return SCALAR;
    }
    if (ELBOOL..=ELVEC4A).contains(&case) {
        return RUN;
    }
    const LIST: &[(Case, &[Way])] = &[
        (Case::String0, FIXED), (Case::String1, TEXT), (Case::String2, TEXT), (Case::String3, TEXT),
        (Case::String7, HASHED), (Case::String8, HASHED), (Case::StringOther, &[Remark]),
        (Case::Enum4, NAMES), (Case::Enum2, NAMES), (Case::Enum1, NAMES),
        (Case::Flags4, BITS), (Case::Flags2, BITS), (Case::Flags1, BITS),
        (Case::Inline, &[NoFit, Wrong, NoDef, Missing, Null, Empty, Written]),
        (Case::Pointed, &[NoFit, Wrong, NoDef, Missing, Null, Empty, OwnType, ByReference]),
        (Case::Array, &[Remark, Wrong, Missing, Null, Blank, Index16, Index12]),
        (Case::ArrayPointed, &[NoFit, Empty, Dropped, Sub0, Sub4, Written]),
        (Case::ArrayEmbedded, &[NoFit, Empty, Dropped, Cut, Written]),
        (Case::Map, &[NoFit, Wrong, Missing, Null, Empty, NoDef, OutOfRange, OneMember, SameName, Written]),
        (Case::MapOther, &[Remark]), (Case::Other, &[Remark]),
        (Case::ElPointer, &[OwnType, ByReference, NoDef, NotStruct, Empty]),
        (Case::ElStruct, &[NoDef, NotStruct, Null, Written, Empty]),
        (Case::ElString7, &[Dropped, Written, Empty]), (Case::ElString8, &[Dropped, Written, Empty]),
        (Case::ElString1, &[Default, Written, Empty]), (Case::ElString2, &[Default, Written, Empty]),
        (Case::ElString3, &[Default, Written, Empty]), (Case::ElString0, &[Remark, Dropped, Cut, Written, Empty]),
        (Case::ElStringOther, &[Remark]),
        (Case::ElEnum, &[Dropped, FloatText, Known, Unknown, Written, Empty]), (Case::ElOther, &[Remark]),
        (Case::Item, &[NewBlock, OldBlock, Full, Long, ZeroLength]), (Case::Noted, &[Written, Repeated]),
        (Case::TextFloat, &[Decimal, Tie, MinusZero, FloatText, Wrong]),
        (Case::TextVector, &[Decimal, NoPart, Few, More, Bad, BadBehind, BadFifth, FloatText, FloatBehind, FloatFifth, Way::Item, FloatItem]),
        (Case::TextInt, &[Decimal, Fraction, FloatText]),
        (Case::TextEnum, &[Decimal, Fraction, OwnName, FloatText]),
        (Case::TextFlags, &[Decimal, Fraction, Part, FloatText, Way::Item, FloatItem]),
    ];
    LIST.iter().find(|(c, _)| *c as usize == case).map_or(&[], |(_, w)| w)
}

/// Counts by case and way, and by place and kind of value.
#[derive(Clone)]
pub struct Hits {
    pub counts: Vec<[u64; WAYS.len()]>,
    pub values: [[u64; 22]; PLACES.len()],
    closed: bool,
}

named! { Place, PLACES:
    Int "integer", Float "float", Vector "vector", Text "text", Hash "hash", Enum "enum", Flags "flags",
    Struct "structure", Array "array", Map "map",
}

impl Hits {
    pub fn new() -> Hits {
        Hits { counts: vec![[0; WAYS.len()]; CASES.len()], values: [[0; 22]; PLACES.len()], closed: false }
    }

    /// What is passed through from here on is not counted.
    pub fn close(&mut self) {
        self.closed = true;
    }

    pub fn hit(&mut self, case: Case, way: Way) {
        self.counts[case as usize][way as usize] += !self.closed as u64;
    }

    pub fn value(&mut self, place: Place, kind: u8) {
        self.values[place as usize][kind as usize] += !self.closed as u64;
    }

    pub fn add(&mut self, other: &Hits) {
        for (a, b) in self.counts.iter_mut().zip(&other.counts) {
            for (x, y) in a.iter_mut().zip(b) {
                *x += y;
            }
        }
        for (a, b) in self.values.iter_mut().zip(&other.values) {
            for (x, y) in a.iter_mut().zip(b) {
                *x += y;
            }
        }
    }

    /// The numbers of what was passed through, for choosing cases.
    pub fn features(&self) -> Vec<u32> {
        let mut out = Vec::new();
        for (c, row) in self.counts.iter().enumerate() {
            out.extend(row.iter().enumerate().filter(|(_, n)| **n > 0).map(|(w, _)| (c * WAYS.len() + w) as u32));
        }
        let base = CASES.len() * WAYS.len();
        for (p, row) in self.values.iter().enumerate() {
            out.extend(row.iter().enumerate().filter(|(_, n)| **n > 0).map(|(k, _)| (base + p * 22 + k) as u32));
        }
        out
    }

    /// Cases and ways that were never passed.
    pub fn unreached(&self) -> Vec<String> {
        let mut out = Vec::new();
        for case in 0..CASES.len() {
            for way in ways(case) {
                if self.counts[case][*way as usize] == 0 {
                    out.push(format!("{}: {}", CASES[case], WAYS[*way as usize]));
                }
            }
        }
        out
    }
}
