//! Writes scenes at the limits into a directory: blocks (10), file (13), remarks (14), full (the largest charge); and
//! those that are built with the root alone (most) or just without it: own (else 10), brim (else 13).
mod pso;

use pso::{row, schema, structure, words};
use std::{env, fs, path::Path};

/// A Struct 0x40 whose member 0x41 is an array of Structs without members, of these types.
fn list_sheet(types: impl IntoIterator<Item = u32>) -> Vec<u8> {
    let types: Vec<u32> = types.into_iter().collect();
    let n = types.len() as u32;
    let mut out = words(&[n + 2]);
    out.extend(row(21, 0, [0x40, 1, 1, 0]));
    out.extend(row(19, 0x41, [2, n, 0, 0]));
    types.iter().for_each(|t| out.extend(row(21, 0, [*t, n + 2, 0, 0])));
    out
}

/// Structure 0x40 with an array of pointers, and more names for one other body.
fn list_schema(types: std::ops::Range<u32>, body: Vec<u8>) -> Vec<u8> {
    padded_schema(types, body, 0)
}

/// The same with so many bytes more in structure 0x40.
fn padded_schema(types: std::ops::Range<u32>, body: Vec<u8>, more: u32) -> Vec<u8> {
    let root = structure(16 + more, &[[0x100, 0x0C03_0000, 0], [0x41, 0x0D00_0000, 0]]);
    let names: Vec<(u32, usize)> = [(0x40, 0)].into_iter().chain(types.map(|t| (t, 1))).collect();
    schema(&names, &[root, body])
}

/// The last item of the list has the root's type, so that its block has room for the root.
fn with_own(types: std::ops::Range<u32>) -> Vec<u8> {
    list_sheet(types.chain([0x40]))
}

/// Structure 0x40 with 5,000 members of a type that packing does not know.
fn remarks() -> (Vec<u8>, Vec<u8>) {
    let n = 5_000;
    let mut sheet = words(&[n + 1]);
    sheet.extend(row(21, 0, [0x40, 1, n, 0]));
    (0..n).for_each(|k| sheet.extend(row(7, 0x10000 + k, [k, 0, 0, 0])));
    let members: Vec<[u32; 3]> = (0..n).map(|k| [0x10000 + k, 0x1100_0000, 0]).collect();
    (sheet, schema(&[(0x40, 0)], &[structure(4, &members)]))
}

/// One structure as long as the charge allows.
fn full() -> (Vec<u8>, Vec<u8>) {
    let sheet = [words(&[2]), row(21, 0, [0x40, 1, 1, 0]), row(7, 0x41, [7, 0, 0, 0])].concat();
    (sheet, schema(&[(0x40, 0)], &[structure(4_194_304 - 16, &[[0x41, 0x0600_0000, 0]])]))
}

/// With so many bytes more in structure 0x40, which stands there twice, the pack is as long as one can be.
const BRIM: u32 = 130_614;

fn main() {
    let directory = env::args().nth(1).expect("a directory");
    let (blocks, long) = (0x1000..0x2000, 0x1000..0x1000 + 22);
    // The run of pointers has a block, and the root another.
    let (most, less) = (0x1000..0x1000 + 4_093, 0x1000..0x1000 + 21);
    let (short, body) = (structure(4, &[]), structure(4, &vec![[0x100, 0, 0]; 65_535]));
    let scenes = [
        ("blocks", (list_sheet(blocks.clone()), list_schema(blocks.clone(), short.clone()))),
        ("most", (list_sheet(most.clone()), list_schema(blocks.clone(), short.clone()))),
        ("own", (with_own(most), list_schema(blocks, short))),
        ("file", (list_sheet(long.clone()), list_schema(long, body.clone()))),
        ("brim", (with_own(less.clone()), padded_schema(less, body, BRIM))),
        ("remarks", remarks()),
        ("full", full()),
    ];
    for (name, (sheet, schema)) in scenes {
        let path = |end: &str| Path::new(&directory).join(format!("{name}.{end}"));
        fs::write(path("sheet"), sheet).expect("a sheet");
        fs::write(path("schema"), schema).expect("a schema file");
    }
}
