//! Writes scenes for `accept` into a directory: two (two blocks of one name), shared (members that share bytes), none (an
//! array without items), needless (what needs no definition of its own),
//! stopped (refused with 11, then with 9); and spare.schema.
#[path = "pso.rs"]
mod pso;
use pso::{row, schema, section, structure, words};
use std::{env, fs, path::Path};

/// Structure 0x40 with an array of pointers to two structures 0x50, so long that each has a block of its own.
fn two() -> (Vec<u8>, Vec<u8>) {
    let rows = [
        row(21, 0, [0x40, 1, 1, 0]),
        row(19, 0x41, [2, 2, 0, 0]),
        row(21, 0, [0x50, 4, 1, 0]),
        row(21, 0, [0x50, 5, 1, 0]),
        row(7, 0x51, [1, 0, 0, 0]),
        row(7, 0x51, [2, 0, 0, 0]),
    ];
    let root = structure(16, &[[0x100, 0x0C03_0000, 0x50], [0x41, 0x0D00_0000, 0]]);
    let part = structure(600_000, &[[0x51, 0x0600_0000, 0]]);
    ([words(&[6]), rows.concat()].concat(), schema(&[(0x40, 0), (0x50, 1)], &[root, part]))
}

/// Structure 0x40 with a text's pointer and a u32 at one offset, and a text's pointer that stays.
fn shared() -> (Vec<u8>, Vec<u8>) {
    let rows = [
        row(21, 0, [0x40, 1, 3, 0]),
        row(15, 0x41, [0, 5, 0, 0]),
        row(7, 0x42, [0xDEAD_BEEF, 0, 0, 0]),
        row(15, 0x43, [5, 4, 0, 0]),
    ];
    let root = structure(16, &[[0x41, 0x0B01_0000, 0], [0x42, 0x0600_0000, 0], [0x43, 0x0B01_0008, 0]]);
    ([words(&[4]), rows.concat(), b"firstlast".to_vec()].concat(), schema(&[(0x40, 0)], &[root]))
}

/// Structure 0x40 with an array by pointer that has no items.
fn none() -> (Vec<u8>, Vec<u8>) {
    let rows = [row(21, 0, [0x40, 1, 1, 0]), row(19, 0x41, [2, 0, 0, 0])];
    let root = structure(16, &[[0x100, 0x0600_0000, 0], [0x41, 0x0D00_0000, 0]]);
    ([words(&[2]), rows.concat()].concat(), schema(&[(0x40, 0)], &[root]))
}

/// Structure 0x40 with a pointer to a Struct of type 0, and an embedded array of structures 0x50 without elements.
fn needless() -> (Vec<u8>, Vec<u8>) {
    let rows = [row(21, 0, [0x40, 1, 2, 0]), row(21, 0x41, [0, 3, 0, 0]), row(19, 0x42, [3, 0, 0, 0])];
    let members = [[0x100, 0x0C00_0000, 0x50], [0x41, 0x0C03_0000, 0x40], [0x42, 0x0D01_0008, 0x2_0000]];
    (
        [words(&[3]), rows.concat()].concat(),
        schema(&[(0x40, 0), (0x50, 1)], &[structure(16, &members), structure(4, &[])]),
    )
}

/// A text that is a float and no decimal (11), and behind it more than the charge allows (9); with a pack of its root.
fn stopped() -> (Vec<u8>, Vec<u8>) {
    let list = [row(21, 0, [0x40, 1, 2, 0]), row(15, 0x41, [0, 3, 0, 0]), row(19, 0x42, [3, 9, 0, 0])].concat();
    let items = row(21, 0, [0x50, 12, 0, 0]).repeat(9);
    let members = [[0x41, 0x0700_0000, 0], [0x100, 0x0C03_0000, 0x50], [0x42, 0x0D00_0000, 1]];
    let psch = schema(&[(0x40, 0), (0x50, 1)], &[structure(16, &members), structure(600_000, &[])]);
    let pmap = section(b"PMAP", &words(&[1, 0x1_7070, 0x40, 16, 0, 16]));
    let pack = [section(b"PSIN", &[0; 24]), pmap, psch].concat();
    ([words(&[12]), list, items, b"1e5".to_vec()].concat(), pack)
}

/// Fifty names for one structure.
fn spare() -> Vec<u8> {
    schema(&(0..50).map(|n| (0x1031 - n, 0)).collect::<Vec<_>>(), &[structure(4, &[])])
}

fn main() {
    let directory = env::args().nth(1).expect("a directory");
    let write = |name: &str, bytes: Vec<u8>| fs::write(Path::new(&directory).join(name), bytes).expect("a file");
    for (name, (sheet, schema)) in [("two", two()), ("shared", shared()), ("none", none()), ("needless", needless())] {
        write(&format!("{name}.sheet"), sheet);
        write(&format!("{name}.schema"), schema);
    }
    let (sheet, pack) = stopped();
    write("stopped.sheet", sheet);
    write("stopped.pso", pack);
    write("spare.schema", spare());
}
