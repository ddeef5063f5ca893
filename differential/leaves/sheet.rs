//! A value as the rows of a sheet, row 0 being the value itself, with its texts behind the rows.
use crate::value::MetaValue;

fn row(kind: u8, name: u32, f: [u32; 4]) -> Vec<u8> {
    let mut r = vec![kind, 0, 0, 0];
    r.extend(name.to_be_bytes());
    for x in f {
        r.extend(x.to_be_bytes());
    }
    r
}

pub fn sheet(root: &MetaValue) -> Vec<u8> {
    let mut queue: Vec<(u32, &MetaValue)> = vec![(0, root)];
    let (mut rows, mut texts, mut i) = (Vec::new(), Vec::<u8>::new(), 0);
    while i < queue.len() {
        let (name, v) = queue[i];
        let first = queue.len() as u32;
        let long = |x: u64| [(x >> 32) as u32, x as u32, 0, 0];
        let (kind, f) = match v {
            MetaValue::Null => (0, [0; 4]),
            MetaValue::Bool(b) => (1, [*b as u32, 0, 0, 0]),
            MetaValue::I8(x) => (2, [*x as u32, 0, 0, 0]),
            MetaValue::U8(x) => (3, [*x as u32, 0, 0, 0]),
            MetaValue::I16(x) => (4, [*x as u32, 0, 0, 0]),
            MetaValue::U16(x) => (5, [*x as u32, 0, 0, 0]),
            MetaValue::I32(x) => (6, [*x as u32, 0, 0, 0]),
            MetaValue::U32(x) => (7, [*x, 0, 0, 0]),
            MetaValue::I64(x) => (8, long(*x as u64)),
            MetaValue::U64(x) => (9, long(*x)),
            MetaValue::F32(x) => (10, [x.to_bits(), 0, 0, 0]),
            MetaValue::Vec2(a) => (11, [a.x.to_bits(), a.y.to_bits(), 0, 0]),
            MetaValue::Vec3(a) => (12, [a.x.to_bits(), a.y.to_bits(), a.z.to_bits(), 0]),
            MetaValue::Vec4(a) => (13, [a.x.to_bits(), a.y.to_bits(), a.z.to_bits(), a.w.to_bits()]),
            MetaValue::Hash(h) => (14, [*h, 0, 0, 0]),
            MetaValue::Str(s) => {
                let start = texts.len() as u32;
                texts.extend(s.as_bytes());
                (15, [start, s.len() as u32, 0, 0])
            }
            MetaValue::Enum { value, .. } => (16, [*value as u32, 0, 0, 0]),
            MetaValue::Flags { bits, .. } => (17, [*bits, 0, 0, 0]),
            MetaValue::Bytes(_) => (18, [0; 4]),
            MetaValue::Array(a) => {
                queue.extend(a.items.iter().map(|x| (0, x)));
                (19, [first, a.items.len() as u32, 0, 0])
            }
            MetaValue::Map(pairs) => {
                for (k, x) in pairs {
                    queue.push((0, k));
                    queue.push((0, x));
                }
                (20, [first, pairs.len() as u32, 0, 0])
            }
            MetaValue::Struct(s) => {
                queue.extend(s.fields.iter().map(|(n, x)| (*n, x)));
                (21, [s.type_hash, first, s.fields.len() as u32, 0])
            }
        };
        rows.extend(row(kind, name, f));
        i += 1;
    }
    let mut out = (queue.len() as u32).to_be_bytes().to_vec();
    out.extend(rows);
    out.extend(texts);
    out
}

/// Entries as they stand in a schema file: name and value.
pub fn entries(members: &[(u32, i32)]) -> Vec<u8> {
    members.iter().flat_map(|(n, v)| [n.to_be_bytes(), v.to_be_bytes()].concat()).collect()
}
