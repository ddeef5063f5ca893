//! The reference: sheets decoded to its value trees, its messages mapped to remarks, its panics caught.
use crate::bytes::u32_at;
use crate::model::sheet as kinds;
use crate::model::state::Remark;
use reference::math::{Vec2, Vec3, Vec4};
use reference::pso::{parse_pso, PsoFile};
use reference::pso_write::build_pso;
use reference::schema::Schema;
use reference::value::{MetaArray, MetaStruct, MetaValue};
use std::collections::HashSet;
use std::panic::{catch_unwind, AssertUnwindSafe};

/// What the reference did with an input.
pub enum Answer<T> {
    Gave(T),
    Refused(String),
    Panicked,
}

/// No message is printed where the reference panics.
pub fn silence_panics() {
    std::panic::set_hook(Box::new(|info| {
        let ours = info.location().map_or(true, |l| !l.file().contains("/reference/"));
        if ours {
            eprintln!("{info}");
        }
    }));
}

fn caught<T>(f: impl FnOnce() -> anyhow::Result<T>) -> Answer<T> {
    match catch_unwind(AssertUnwindSafe(f)) {
        Ok(Ok(x)) => Answer::Gave(x),
        Ok(Err(e)) => Answer::Refused(e.to_string()),
        Err(_) => Answer::Panicked,
    }
}

pub fn schema(bytes: &[u8]) -> Answer<Schema> {
    caught(|| Schema::from_pso_bytes(bytes))
}

pub fn parse(file: &[u8]) -> Answer<PsoFile> {
    caught(|| parse_pso(file))
}

/// File and messages.
pub fn build(root: &MetaValue, schema: &Schema) -> Answer<(Vec<u8>, Vec<String>)> {
    caught(|| build_pso(root, schema).map(|w| (w.bytes, w.warnings)))
}

/// The tree of a sheet that breaks no layout.
pub fn tree(sheet: &[u8]) -> MetaValue {
    value(sheet, 4 + 24 * u32_at(sheet, 0) as usize, 0)
}

fn value(s: &[u8], texts: usize, row: usize) -> MetaValue {
    let at = 4 + 24 * row;
    let [a, b, c, d] = [8, 12, 16, 20].map(|k| u32_at(s, at + k));
    let float = f32::from_bits;
    let child = |r: u32| value(s, texts, r as usize);
    match s[at] {
        kinds::NULL => MetaValue::Null,
        kinds::BOOL => MetaValue::Bool(a == 1),
        kinds::I8 => MetaValue::I8(a as i8),
        kinds::U8 => MetaValue::U8(a as u8),
        kinds::I16 => MetaValue::I16(a as i16),
        kinds::U16 => MetaValue::U16(a as u16),
        kinds::I32 => MetaValue::I32(a as i32),
        kinds::U32 => MetaValue::U32(a),
        kinds::I64 => MetaValue::I64(((a as u64) << 32 | b as u64) as i64),
        kinds::U64 => MetaValue::U64((a as u64) << 32 | b as u64),
        kinds::F32 => MetaValue::F32(float(a)),
        kinds::VEC2 => MetaValue::Vec2(Vec2 { x: float(a), y: float(b) }),
        kinds::VEC3 => MetaValue::Vec3(Vec3 { x: float(a), y: float(b), z: float(c) }),
        kinds::VEC4 => MetaValue::Vec4(Vec4 { x: float(a), y: float(b), z: float(c), w: float(d) }),
        kinds::HASH => MetaValue::Hash(a),
        kinds::STR => {
            let start = texts + a as usize;
            MetaValue::Str(String::from_utf8(s[start..start + b as usize].to_vec()).expect("texts are ASCII"))
        }
        kinds::ENUM => MetaValue::Enum { enum_hash: 0, value: a as i32, name: None },
        kinds::FLAGS => MetaValue::Flags { enum_hash: 0, bits: a, names: Vec::new() },
        kinds::BYTES => MetaValue::Bytes(Vec::new()),
        kinds::ARRAY => MetaValue::Array(MetaArray { item_type: None, typed_items: false, items: (a..a + b).map(child).collect() }),
        kinds::MAP => MetaValue::Map((0..b).map(|k| (child(a + 2 * k), child(a + 2 * k + 1))).collect()),
        kinds::STRUCT => {
            let fields = (b..b + c).map(|r| (u32_at(s, 4 + 24 * r as usize + 4), child(r))).collect();
            MetaValue::Struct(MetaStruct { type_hash: a, fields })
        }
        _ => unreachable!(),
    }
}

const TYPE_NAMES: [&str; 12] = [
    "boolean", "integer", "float", "vector2", "vector3", "vector4", "string or name", "enum member", "flag set", "structure",
    "array", "map",
];

fn hex(s: &str) -> Option<u32> {
    u32::from_str_radix(s.strip_prefix("0x")?, 16).ok()
}

/// A message as a remark.
pub fn remark(message: &str) -> Option<Remark> {
    let (name, body) = (message.get(..21)?, message.get(21..)?.strip_prefix(": ")?);
    let structure = hex(name.get(..10)?)?;
    let member = hex(name.get(10..)?.strip_prefix('.')?)?;
    let (kind, detail) = meaning(body)?;
    Some(Remark { kind, structure, member, detail })
}

fn meaning(body: &str) -> Option<(u32, u32)> {
    let between = |front: &str, back: &str| body.strip_prefix(front)?.strip_suffix(back);
    if let Some(s) = between("member at ", "-byte structure") {
        let (_, size) = s.split_once(" does not fit the ")?;
        return Some((1, size.parse().ok()?));
    }
    if let Some(s) = body.strip_prefix("value ") {
        let (_, name) = s.rsplit_once(" is not a ")?;
        return Some((2, 1 + TYPE_NAMES.iter().position(|n| *n == name)? as u32));
    }
    if body.starts_with("element ") && body.ends_with(" is not a structure") {
        return Some((9, 0));
    }
    match body {
        "array without ARRAYINFO in the schema" => return Some((5, 0)),
        "array of zero-length strings" => return Some((10, 0)),
        _ => {}
    }
    let numbers = [(3, "string subtype "), (6, "map subtype "), (11, "string array subtype ")];
    for (kind, front) in numbers {
        if let Some(n) = between(front, " is not supported") {
            return Some((kind, n.parse().ok()?));
        }
    }
    if let Some(ty) = between("member type ", " is not supported") {
        return Some((13, hex(ty)?));
    }
    if let Some(ty) = between("arrays of element type ", " are not supported") {
        return Some((12, hex(ty)?));
    }
    let names = [(7, "no schema for map pair structure "), (8, "no schema for element structure "), (4, "no schema for structure ")];
    names.iter().find_map(|(kind, front)| Some((*kind, hex(body.strip_prefix(front)?)?)))
}

/// The remarks of messages: mapped, then equal ones once, the first kept.
pub fn remarks(messages: &[String]) -> Result<Vec<Remark>, String> {
    let mut seen = HashSet::new();
    let mut out = Vec::new();
    for m in messages {
        let r = remark(m).ok_or_else(|| format!("message not understood: {m}"))?;
        if seen.insert(r) {
            out.push(r);
        }
    }
    Ok(out)
}

/// The number that document 01 gives to a refusal of `parse_pso`.
pub fn reader_number(message: &str) -> Option<u32> {
    const LIST: [(&str, u32); 11] = [
        ("not a PSO file", 15), ("runs past the end", 4), ("PMAP section too short", 16), ("PMAP lists", 16),
        ("PSCH section too short", 5), ("schema count overflow", 5), ("PSCH lists", 5), ("out of bounds", 5),
        ("unknown schema entry type", 6), ("no data section", 17), ("no PMAP section", 18),
    ];
    LIST.iter().find(|(text, _)| message.contains(text)).map(|(_, n)| *n)
}
