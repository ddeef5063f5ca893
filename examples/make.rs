//! Writes the sheets, schema files and names of the examples. It shows how a sheet is made: rows breadth first, texts
//! behind.
//!
//!     rustc --edition 2021 -o target/make examples/make.rs && target/make examples
use std::{collections::BTreeSet, env, fs, io, path::Path, sync::Mutex};

/// A value, by its kind.
enum Value {
    Bool(bool),
    I16(i16),
    U8(u8),
    U32(u32),
    F32(f32),
    Vec3([f32; 3]),
    Vec4([f32; 4]),
    Hash(u32),
    Str(&'static str),
    Flags(u32),
    Array(Vec<Value>),
    Map(Vec<(Value, Value)>),
    Struct(u32, Vec<(u32, Value)>),
}
use Value::*;

/// The names that the scene uses.
static NAMES: Mutex<BTreeSet<String>> = Mutex::new(BTreeSet::new());

/// Jenkins one-at-a-time: the number that stands for a name.
fn name(text: &str) -> u32 {
    NAMES.lock().unwrap().insert(text.into());
    let mut h = 0u32;
    for b in text.bytes() {
        h = h.wrapping_add(b as u32);
        h = h.wrapping_add(h << 10);
        h ^= h >> 6;
    }
    h = h.wrapping_add(h << 3);
    h ^= h >> 11;
    h.wrapping_add(h << 15)
}

fn push(out: &mut Vec<u8>, numbers: &[u32]) {
    numbers.iter().for_each(|n| out.extend_from_slice(&n.to_be_bytes()));
}

/// A value's row without its name; its children go behind the rows that wait, its text behind the texts.
fn row<'a>(value: &'a Value, waiting: &mut Vec<(u32, &'a Value)>, texts: &mut Vec<u8>) -> (u32, [u32; 4]) {
    let first = waiting.len() as u32;
    match value {
        Bool(x) => (1, [*x as u32, 0, 0, 0]),
        U8(x) => (3, [*x as u32, 0, 0, 0]),
        I16(x) => (4, [*x as i32 as u32, 0, 0, 0]),
        U32(x) => (7, [*x, 0, 0, 0]),
        F32(x) => (10, [x.to_bits(), 0, 0, 0]),
        Vec3(v) => (12, [v[0].to_bits(), v[1].to_bits(), v[2].to_bits(), 0]),
        Vec4(v) => (13, v.map(f32::to_bits)),
        Hash(x) => (14, [*x, 0, 0, 0]),
        Str(s) => {
            texts.extend_from_slice(s.as_bytes());
            (15, [(texts.len() - s.len()) as u32, s.len() as u32, 0, 0])
        }
        Flags(x) => (17, [*x, 0, 0, 0]),
        Array(items) => {
            waiting.extend(items.iter().map(|v| (0, v)));
            (19, [first, items.len() as u32, 0, 0])
        }
        Map(pairs) => {
            waiting.extend(pairs.iter().flat_map(|(k, v)| [(0, k), (0, v)]));
            (20, [first, pairs.len() as u32, 0, 0])
        }
        Struct(kind, members) => {
            waiting.extend(members.iter().map(|(n, v)| (*n, v)));
            (21, [*kind, first, members.len() as u32, 0])
        }
    }
}

/// The sheet of a value.
fn sheet(root: &Value) -> Vec<u8> {
    let mut waiting = vec![(0, root)];
    let (mut rows, mut texts) = (Vec::new(), Vec::new());
    let mut at = 0;
    while at < waiting.len() {
        let (member, value) = waiting[at];
        let (kind, fields) = row(value, &mut waiting, &mut texts);
        push(&mut rows, &[kind << 24, member]);
        push(&mut rows, &fields);
        at += 1;
    }
    let mut out = Vec::new();
    push(&mut out, &[waiting.len() as u32]);
    [out, rows, texts].concat()
}

/// A member: name, type byte, subtype, offset, reference.
type Member = (u32, u8, u8, u16, u32);

enum Definition {
    /// Name, size, members.
    Structure(u32, u32, Vec<Member>),
    /// Name, entries of name and value.
    Enum(u32, Vec<(u32, u32)>),
}

fn body(definition: &Definition) -> (u32, Vec<u8>) {
    let mut out = Vec::new();
    match definition {
        Definition::Structure(name, size, members) => {
            push(&mut out, &[members.len() as u32, *size, 0]);
            for (n, kind, subtype, offset, reference) in members {
                let word = (*kind as u32) << 24 | (*subtype as u32) << 16 | *offset as u32;
                push(&mut out, &[*n, word, *reference]);
            }
            (*name, out)
        }
        Definition::Enum(name, entries) => {
            push(&mut out, &[1 << 24 | entries.len() as u32]);
            entries.iter().for_each(|(n, v)| push(&mut out, &[*n, *v]));
            (*name, out)
        }
    }
}

/// A schema file: one PSCH section.
fn schema(definitions: &[Definition]) -> Vec<u8> {
    let bodies: Vec<(u32, Vec<u8>)> = definitions.iter().map(body).collect();
    let mut place = 12 + 8 * bodies.len() as u32;
    let length = place + bodies.iter().map(|(_, b)| b.len() as u32).sum::<u32>();
    let mut out = b"PSCH".to_vec();
    push(&mut out, &[length, bodies.len() as u32]);
    for (name, b) in &bodies {
        push(&mut out, &[*name, place]);
        place += b.len() as u32;
    }
    bodies.iter().for_each(|(_, b)| out.extend_from_slice(b));
    out
}

/// Case 1 of the specification: one structure with the number 7.
fn case1() -> (Vec<u8>, Vec<u8>) {
    let definition = Definition::Structure(0x40, 4, vec![(0x41, 6, 0, 0, 0)]);
    (sheet(&Struct(0x40, vec![(0x41, U32(7))])), schema(&[definition]))
}

/// The descriptor of an array's elements, a flag set's enum or a map's pairs.
const INFO: u32 = 0x100;

/// A hall's structures; offsets and sizes in bytes.
fn hall_structures() -> Vec<Definition> {
    let hall = vec![
        (name("id"), 0x0B, 7, 0, 0),
        (name("title"), 0x0B, 1, 8, 0),
        (name("motto"), 0x0B, 3, 16, 0),
        (name("code"), 0x0B, 0, 32, 12 << 16),
        (name("level"), 0x03, 0, 44, 0),
        (name("lit"), 0x00, 0, 46, 0),
        (name("use"), 0x0E, 0, 48, name("HallUse")),
        (INFO, 0x0E, 0, 0, name("HallFlags")),
        (name("flags"), 0x0F, 0, 52, 7),
        (name("bounds"), 0x0C, 0, 64, name("Bounds")),
        (name("entrance"), 0x0C, 3, 96, name("Door")),
        (INFO, 0x0C, 0, 0, name("Lamp")),
        (name("lamps"), 0x0D, 0, 104, 11),
        (INFO, 0x0C, 3, 0, name("Prop")),
        (name("props"), 0x0D, 0, 120, 13),
        (INFO, 0x07, 0, 0, 0),
        (name("heights"), 0x0D, 0, 136, 15),
        (INFO, 0x0B, 1, 0, 0),
        (name("signs"), 0x0D, 0, 152, 17),
        (INFO, 0x02, 0, 0, 0),
        (name("grid"), 0x0D, 1, 168, 4 << 16 | 19),
        (INFO, 0x0C, 0, 0, name("Seats")),
        (name("seats"), 0x10, 1, 176, 21),
    ];
    let bounds = vec![(name("low"), 0x09, 0, 0, 0), (name("high"), 0x09, 0, 16, 0)];
    let door = vec![(name("width"), 0x07, 0, 0, 0), (name("label"), 0x0B, 1, 8, 0)];
    let lamp = vec![(name("at"), 0x09, 0, 0, 0), (name("colour"), 0x06, 0, 12, 0), (name("power"), 0x07, 0, 16, 0)];
    let prop = vec![(name("model"), 0x0B, 7, 0, 0), (name("turn"), 0x0A, 0, 16, 0)];
    let bench = vec![(name("model"), 0x0B, 7, 0, 0), (name("places"), 0x02, 0, 4, 0)];
    let seats = vec![(name("row"), 0x0B, 7, 0, 0), (name("count"), 0x06, 0, 4, 0)];
    vec![
        Definition::Structure(name("Hall"), 200, hall),
        Definition::Structure(name("Bounds"), 32, bounds),
        Definition::Structure(name("Door"), 16, door),
        Definition::Structure(name("Lamp"), 20, lamp),
        Definition::Structure(name("Prop"), 32, prop),
        Definition::Structure(name("Bench"), 8, bench),
        Definition::Structure(name("Seats"), 8, seats),
    ]
}

fn hall_enums() -> Vec<Definition> {
    let entries = |words: &[&str]| words.iter().enumerate().map(|(k, w)| (name(w), k as u32)).collect();
    vec![
        Definition::Enum(name("HallUse"), entries(&["STORE", "WORKSHOP", "STATION"])),
        Definition::Enum(name("HallFlags"), entries(&["HEATED", "PUBLIC", "CAMERAS"])),
        // Not used by the scene, so not in its pack.
        Definition::Enum(name("RoadUse"), entries(&["MAIN", "SIDE"])),
    ]
}

/// A hall with lamps, props, texts and seats. The second lamp's power is a word, which packing remarks.
fn hall() -> (Vec<u8>, Vec<u8>) {
    let lamp = |x: f32, colour: u32, power: Value| {
        let at = Vec3([x, 4.5, -2.0]);
        Struct(name("Lamp"), vec![(name("at"), at), (name("colour"), U32(colour)), (name("power"), power)])
    };
    let door = vec![(name("width"), F32(2.4)), (name("label"), Str("Platform 3"))];
    let prop = vec![(name("model"), Str("prop_clock")), (name("turn"), Vec4([0.0, 0.0, 0.0, 1.0]))];
    let bench = vec![(name("model"), Str("prop_bench")), (name("places"), U8(4))];
    let bounds = vec![(name("low"), Vec3([-20.0, 0.0, -8.0])), (name("high"), Vec3([20.0, 9.0, 8.0]))];
    let members = vec![
        (name("id"), Str("hall_03")),
        (name("title"), Str("North hall")),
        (name("motto"), Str("Mind the gap")),
        (name("code"), Str("NH-03")),
        (name("level"), I16(-1)),
        (name("lit"), Bool(true)),
        (name("use"), Str("STATION")),
        (name("flags"), Str("HEATED, CAMERAS")),
        (name("bounds"), Struct(name("Bounds"), bounds)),
        (name("entrance"), Struct(name("Door"), door)),
        (name("lamps"), Array(vec![lamp(-6.0, 0xFFFF_E0C0, F32(60.0)), lamp(6.0, 0xFFFF_FFFF, Str("bright"))])),
        (name("props"), Array(vec![Struct(name("Prop"), prop), Struct(name("Bench"), bench)])),
        (name("heights"), Array(vec![F32(0.25), U32(16_777_217), F32(9.0)])),
        (name("signs"), Array(vec![Str("Exit"), Str(""), Str("Tickets")])),
        (name("grid"), Array(vec![U8(1), U8(2), Flags(3), Hash(4)])),
        (name("seats"), Map(vec![(Str("row_a"), U32(12)), (Str("row_b"), Str("0x10"))])),
    ];
    let definitions: Vec<Definition> = hall_structures().into_iter().chain(hall_enums()).collect();
    (sheet(&Struct(name("Hall"), members)), schema(&definitions))
}

/// The segments of the road.
const SEGMENTS: u32 = 40;

/// A segment of the road with all that follow it: each points to the next one. The length of every fifth is typed as text.
fn segment(number: u32) -> Value {
    let mut members = vec![
        (name("id"), Hash(name(&format!("segment_{number:02}")))),
        (name("length"), if number % 5 == 0 { Str("12.5") } else { F32(25.0) }),
    ];
    if number < SEGMENTS {
        members.push((name("next"), segment(number + 1)));
    }
    Struct(name("Segment"), members)
}

/// A road: its first segment leads to the others. By pointer a structure is no deeper than the one before.
fn road() -> (Vec<u8>, Vec<u8>) {
    let road = vec![(name("id"), 0x0B, 7, 0, 0), (name("first"), 0x0C, 3, 8, name("Segment"))];
    let segments =
        vec![(name("id"), 0x0B, 7, 0, 0), (name("length"), 0x07, 0, 4, 0), (name("next"), 0x0C, 3, 8, name("Segment"))];
    let definitions =
        [Definition::Structure(name("Road"), 16, road), Definition::Structure(name("Segment"), 16, segments)];
    let members = vec![(name("id"), Hash(name("north_road"))), (name("first"), segment(1))];
    (sheet(&Struct(name("Road"), members)), schema(&definitions))
}

fn main() -> io::Result<()> {
    let target = env::args().nth(1).unwrap_or_else(|| "examples".into());
    let scenes: [(&str, fn() -> (Vec<u8>, Vec<u8>)); 3] = [("case1", case1), ("hall", hall), ("road", road)];
    for (scene, make) in scenes {
        let folder = Path::new(&target).join(scene);
        fs::create_dir_all(&folder)?;
        let (sheet, schema) = make();
        fs::write(folder.join(format!("{scene}.sheet")), sheet)?;
        fs::write(folder.join(format!("{scene}.schema")), schema)?;
        // The numbers of case 1 are not made from names.
        let names = std::mem::take(&mut *NAMES.lock().unwrap());
        if !names.is_empty() {
            let lines: String = names.iter().map(|n| format!("{n}\n")).collect();
            fs::write(folder.join(format!("{scene}.names")), lines)?;
        }
    }
    Ok(())
}
