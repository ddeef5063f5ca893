//! The fixed rows: every text and value named by the readings of document 01's coercion, and edges of each kind.
use crate::hash::rage_joaat;
use crate::math;
use crate::value::{MetaArray, MetaStruct, MetaValue};

pub const TEXTS: &[&str] = &[
    "", " ", "true", "TRUE", "false", "False", "tRuE ", "truex", "0", "7", "+5", "-5", "+", "-", "--5", "+-5", "-0", "+0", "007", "256", "12 3", "1_000", "0b1",
    "0x", "0X", "0x1F", "0X1f", "0x+1F", "0x-1", "0x-8000000000000000", "0x-8000000000000001", "0x7fffffffffffffff", "0x8000000000000000",
    "0xffffffffffffffff", "0x10000000000000000", "0x+", "+0x1", "-0x1", "00x1", "0x1g",
    "9223372036854775807", "9223372036854775808", "-9223372036854775808", "-9223372036854775809", "18446744073709551615", "18446744073709551616",
    "16777217", "16777219",
    "hash_1F", "hash_+1F", "hash_-1F", "hash_0x1F", "hash_", "HASH_1F", "hash_FFFFFFFF", "hash_100000000", " hash_1F ", "hash_1F x", "0x100000000", "0xFFFFFFFF",
    "a", "A", " a", "a b",
    "1.5", "1.", ".5", ".", "-.5e3", "1e5", "1E-7", "1e+", "1e", "e5", "1e5x", "1.2.3", "inf", "-Inf", "+INFINITY", "infinit", "nan", "NaN", "+nan", "nano", "-",
    "1,2", "1,2,3,4,5", "1 2 3", " ,1", "1,x", "x,1", ",", ", ,", ",,", "1.5,x", "x", "0x1,1",
    "12.5", "-0.0", "5.", "+.5", "0.1", ".000000001", "123456789", "1234567890", "000000000", "000000000.5", "8388608.5", "8388609.5", "1.000000000", "999999999", "-12.9", "-0.9", "257.5", "1.5e0", "+.", "1 .5",
    "1234567890.5", "0x1.5", "1.5,2.5", " 1.5 \t, 2.5 ,", "1,2,3,4,5,6", "-0 .5", "1.5,2.5,x", "x,nan", "1.5,x,nan", "1,2,3,4,5,x", "1.5,nan,x", "1,2,3,4,5,1e5", "1,2,1234567890", "1.5,FLAG",
    "FLAG", "flag", "FLAG,OTHER", "OTHER FLAG", "FLAG,,\tOTHER,", "1,FLAG", "FLAG,1", "FLAG,none", "none,FLAG", "none", "hash_0A", "FLAG,hash_0A", "TWICE", "HIGH",
    "\t7", "\n7", "\u{b}7", "\u{c}7", "\r7", " 7", "7\t", "7\n", "7\u{b}", "7\u{c}", "7\r", "\u{8}7", "\u{e}7", "\u{1c}7", "\u{1f}7", "\0", "7\0",
    "\tFLAG\u{b}OTHER\u{c}", "FLAG\rOTHER", "FLAG\u{1c}OTHER", "\u{b}true\u{c}", " \t\n\u{b}\u{c}\r",
];

/// The entries that enum and flag rows are read with: a name twice, values beyond 31 and below 0, a name that is a bare hash.
pub fn members() -> Vec<(u32, i32)> {
    let j = |s: &str| rage_joaat(s);
    vec![(j("FLAG"), 3), (j("OTHER"), 4), (j("TWICE"), 5), (j("TWICE"), 6), (j("HIGH"), 33), (0x0A, 7), (j("true"), 9), (j("a"), -1), (0x1F, 40)]
}

fn text(s: &str) -> MetaValue {
    MetaValue::Str(s.into())
}

fn array(items: Vec<MetaValue>) -> MetaValue {
    MetaValue::Array(MetaArray { items, ..Default::default() })
}

pub fn values() -> Vec<MetaValue> {
    use MetaValue::*;
    let f = f32::from_bits;
    let mut out: Vec<MetaValue> = TEXTS.iter().map(|s| text(s)).collect();
    out.extend([Null, Bool(false), Bool(true), I8(-128), I8(127), U8(255), U8(7), I16(-32768), U16(65535), I32(-1), I32(i32::MIN), U32(7), U32(u32::MAX), U32(256)]);
    out.extend([I64(i64::MIN), I64(i64::MAX), I64(-1), I64(16_777_217), I64(16_777_219), U64(u64::MAX), U64(1 << 63), U64(0x1_0000_0007)]);
    out.extend([0, 0x8000_0000, 0xBFC0_0000, 0x7FC0_0000, 0xFFC0_0001, 0x7F80_0000, 0xFF80_0000, 0x5EFF_FFFF, 0x5F00_0000, 0xDF00_0000, 0xDF00_0001, 1].map(|b| F32(f(b))));
    out.extend([Hash(0), Hash(0x1F), Hash(rage_joaat("FLAG")), Hash(rage_joaat("TWICE")), Hash(0xDEAD_BEEF)]);
    out.extend([-1, 0, 7, i32::MIN].map(|value| Enum { enum_hash: 0, value, name: None }));
    out.extend([0, 5, u32::MAX].map(|bits| Flags { enum_hash: 0, bits, names: vec![] }));
    out.extend([Vec2(math::Vec2 { x: 1.0, y: -0.0 }), Vec3(math::Vec3 { x: 1.0, y: 2.0, z: f(0x7FC0_0001) })]);
    out.push(Vec4(math::Vec4 { x: 1.0, y: 2.0, z: 3.0, w: 4.0 }));
    out.extend([Bytes(vec![]), Map(vec![]), Map(vec![(U32(1), text("1"))]), Struct(MetaStruct::default())]);
    out.push(Struct(MetaStruct { type_hash: 3, fields: vec![(1, U8(1)), (2, text("x"))] }));
    let n = |k: u32| U32(k);
    let (s, x, fl) = (|| text("1.5"), || text("x"), || text("FLAG"));
    out.extend([array(vec![]), array(vec![n(1)]), array(vec![n(1), n(2)]), array(vec![n(1), n(2), n(3)]), array(vec![n(1), n(2), n(3), n(4)]), array(vec![n(1), n(2), n(3), n(4), x()])]);
    out.extend([array(vec![n(1), n(2), x()]), array(vec![n(1), n(2), s()]), array(vec![x(), s()]), array(vec![s(), x()]), array(vec![Null, Bytes(vec![])]), array(vec![array(vec![n(1)]), n(2)])]);
    out.extend([array(vec![text("16777217"), text(".25"), text("-0")]), array(vec![text(".25"), x()]), array(vec![text("1.5"), text("4.5")]), array(vec![s(), text("nan"), x()])]);
    out.extend([array(vec![F32(1.5), I64(-3)]), array(vec![text(" "), n(1)]), array(vec![text("true"), n(1)]), array(vec![Struct(MetaStruct::default())])]);
    out.extend([array(vec![fl(), array(vec![text("OTHER"), n(64)])]), array(vec![fl(), text("none"), s()]), array(vec![fl(), s(), text("none")]), array(vec![array(vec![array(vec![])])])]);
    out.extend([array(vec![fl(), array(vec![n(1), text("none")]), s()]), array(vec![text(""), text(","), n(2)]), array(vec![Bytes(vec![])]), array(vec![text("nan")])]);
    out.push((0..62).fold(fl(), |v, _| array(vec![v])));
    out
}
